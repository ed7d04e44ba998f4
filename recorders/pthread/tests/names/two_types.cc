/* One place that makes locks of several types, or of one in pieces of several sizes. The argument says which. */
#include <cstdlib>
#include <cstring>
#include <mutex>
#include <new>
#include <vector>

#define APART __attribute__((noinline))

static std::mutex other;

static APART void take(std::mutex &m) {
    std::lock_guard<std::mutex> guard(m);
}

/* ---- Two types that aren't of one size. */

struct Session {
    long at;
    std::mutex m;
    int more[3];
    APART void start() { take(m), at++; }
};

struct Timer {
    long at;
    std::mutex m;
    char more[90];
    APART void start() { take(other), take(m), at++; }
};

template <class X> void construct(void *at) { new (at) X; }
template <class X> void start(void *at) { static_cast<X *>(at)->start(); }

struct Kind {
    size_t size;
    void (*construct)(void *);
    void (*start)(void *);
};

static Kind volatile kinds[] = {{sizeof(Session), construct<Session>, start<Session>}, {sizeof(Timer), construct<Timer>, start<Timer>}};

static APART void create(int kind) {
    void *made = ::operator new(kinds[kind].size);
    kinds[kind].construct(made);
    kinds[kind].start(made);
}

static APART void sizes(int count) {
    for (int volatile i = 0; i < count; i = i + 1)
        create(i);
}

/* ---- Two types of one size, of which the second one comes after many of the first one. */

struct Node {
    long at;
    std::mutex m;
};

struct Item {
    long at;
    std::mutex m;
};

static APART void use(Node *node) { take(node->m), node->at++; }
static APART void use(Item *item) { take(other), take(item->m), item->at++; }
static APART void *get(size_t size) { return std::calloc(1, size); }

static APART void alike(int of_first) {
    for (int i = 0; i < of_first * 2; i++) {
        void *made = get(sizeof(Node));
        if (i < of_first)
            use(static_cast<Node *>(made));
        else
            use(static_cast<Item *>(made));
        std::free(made);
    }
}

/* ---- One type, in pieces of several sizes, that several functions take. */

struct Packet {
    std::mutex m;
    long length;
    char bytes[];
    APART void begin() { take(m); }
    APART void end() { take(other), take(m); }
};

static APART Packet *packet(size_t length) {
    Packet *made = static_cast<Packet *>(std::calloc(1, sizeof(Packet) + length));
    made->length = static_cast<long>(length);
    return made;
}

static APART void one_type() {
    for (int i = 0; i < 300; i++) {
        Packet *made = packet(static_cast<size_t>(i % 7) * 16);
        made->begin();
        if (i % 3 == 2)
            made->end();
        std::free(made);
    }
}

struct Row {
    long at;
    std::mutex m;
    APART void read() { take(m); }
    APART void write() { take(other), take(m), at++; }
};

static APART void rows() {
    for (size_t i = 1; i < 20; i++) {
        std::vector<Row> all(i);
        all[i / 2].read();
        all[i - 1].write();
    }
}

int main(int argc, char **argv) {
    const char *what = argc > 1 ? argv[1] : "";
    bool is_first_alone = std::strcmp(what, "first") == 0;
    if (std::strcmp(what, "sizes") == 0 || is_first_alone)
        sizes(is_first_alone ? 1 : 2);
    if (std::strcmp(what, "soon") == 0)
        alike(1);
    if (std::strcmp(what, "late") == 0)
        alike(600);
    if (std::strcmp(what, "one") == 0)
        one_type();
    if (std::strcmp(what, "rows") == 0)
        rows();
}
