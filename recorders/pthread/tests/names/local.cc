// As local.c, in C++: in a namespace, in a method, and in one that has no other name than that of its file.
#include <mutex>

static void take(std::mutex &m) {
    m.lock();
    m.unlock();
}

namespace space {
static inline void first() {
    struct Node {
        long at = 0;
        std::mutex m;
    };
    Node *n = new Node;
    take(n->m);
    delete n;
}
} // namespace space

struct Owner {
    void second() {
        struct Node {
            long at = 0, more = 0;
            std::mutex m;
            void take_it() {
                Node *self = this;
                take(self->m);
            }
        };
        Node *n = new Node;
        n->take_it();
        delete n;
        static std::mutex lock;
        take(lock);
    }
};

namespace {
inline void third() {
    static std::mutex lock;
    take(lock);
}
} // namespace

int main() {
    space::first();
    Owner().second();
    third();
}
