#include <mutex>
struct Tcp { long fd = 0; std::mutex m; };
struct Udp { long port = 0; std::mutex m; };
struct Old { long n; std::mutex m; }; /* without a constructor that does something */
__attribute__((noinline)) void *make(int kind) {
    switch (kind) {
    case 0: return new Tcp;
    case 1: return new Udp;
    case 2: return new Old;
    }
    return nullptr;
}
__attribute__((noinline)) void take(void *p) {
    auto m = (std::mutex *)((char *)p + 8);
    m->lock();
    m->unlock();
}
int main() { take(make(0)); take(make(1)); take(make(2)); take(make(0)); }
