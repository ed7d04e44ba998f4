// A program without debug information, whose last symbol before the code that makes an object is a vector's, which exports it: what is
// made there is no array. It is of two files: the object's is linked behind the other one (SECOND).
#include <mutex>
#include <vector>

struct Both {
    long head = 0;
    std::mutex first, second;
};

#ifdef SECOND
__attribute__((noinline)) static Both *made() { return new Both; }

__attribute__((noinline)) static void take(Both *both) {
    both->first.lock();
    both->second.lock();
    both->second.unlock();
    both->first.unlock();
}

__attribute__((visibility("hidden"))) void take_both() {
    Both *both = made();
    take(both);
    delete both;
}
#else
void take_both();

int main() {
    std::vector<unsigned long> numbers;
    for (unsigned long i = 0; i < 9; i++)
        numbers.push_back(i * i);
    take_both();
    return numbers.back() == 64 ? 0 : 1;
}
#endif
