// Locks that are put by hand into memory that is as large as the only type with a lock at that place; and one that is in such an object, which
// nothing else names than its size.
#include <memory>
#include <mutex>
#include <new>
#include <string>
#include <vector>

#define APART __attribute__((noinline))

extern "C" {
struct table {
    long at;
    pthread_mutex_t m;
    long more[6];
};
}

static struct {
    table *kept;
} all;

APART static void take(void *m) {
    pthread_mutex_lock(static_cast<pthread_mutex_t *>(m));
    pthread_mutex_unlock(static_cast<pthread_mutex_t *>(m));
}

APART static void *put(void *memory) {
    char *lock = static_cast<char *>(memory) + offsetof(table, m);
    return new (lock) pthread_mutex_t{};
}

APART static void in_bytes() {
    char *memory = new char[sizeof(table)];
    take(put(memory));
    delete[] memory;
}

APART static void in_raw_memory() {
    void *memory = operator new(sizeof(table));
    take(put(memory));
    operator delete(memory);
}

APART static void in_vector() {
    std::vector<char> memory(sizeof(table));
    take(put(memory.data()));
}

APART static void in_string() {
    std::string memory;
    memory.reserve(sizeof(table) - 1);
    take(put(&memory[0]));
}

APART static void in_owned() {
    auto memory = std::make_unique<long[]>(sizeof(table) / sizeof(long));
    take(put(memory.get()));
}

APART static void keep() { all.kept = new table{}; }

int main() {
    in_bytes();
    in_raw_memory();
    in_vector();
    in_string();
    in_owned();
    keep();
    take(&all.kept->m);
    delete all.kept;
}
