// Locks whose names are alike but for what tells them apart. Each of a pair is nested with `other` in one order, and its namesake in the other one.
#include "apart.h"

std::mutex other;

// Locks in frames of overloaded functions, at one place of the stack.
__attribute__((noinline)) static void in_frame(int) {
    std::mutex la;
    before(la);
}
__attribute__((noinline)) static void in_frame(char) {
    std::mutex la;
    after(la);
}

struct Pool {
    long count = 0;
    __attribute__((noinline)) void each(long) {
        std::mutex result;
        before(result);
        count++;
    }
    __attribute__((noinline)) void each(const Pool &) const {
        std::mutex result;
        after(result);
    }
};

// Static variables of overloaded functions, of two blocks, and of two lambdas.
static std::mutex &of(int) {
    static std::mutex m;
    return m;
}
static std::mutex &of(const char *) {
    static std::mutex m;
    return m;
}
__attribute__((noinline)) static std::mutex &in_block(bool is_first) {
    if (is_first) {
        static std::mutex m;
        return m;
    }
    static std::mutex m;
    return m;
}

// Locks of two blocks in one frame.
__attribute__((noinline)) static void blocks(bool is_first) {
    if (is_first) {
        std::mutex la;
        before(la);
        return;
    }
    long count[40];
    std::mutex la;
    asm volatile("" ::"r"(count) : "memory");
    after(la);
    asm volatile("" ::"r"(count) : "memory");
}

// A template of a variable.
template <class T> std::mutex of_type;

// Two files have a static function of this name.
__attribute__((noinline)) static void work() {
    std::mutex la;
    before(la);
}

void work_in_other_file();

static void lambdas() {
    auto first = []() __attribute__((noinline)) -> std::mutex & {
        static std::mutex m;
        return m;
    };
    auto second = []() __attribute__((noinline)) -> std::mutex & {
        static std::mutex m;
        return m;
    };
    before(first());
    after(second());
}

int main() {
    Pool *pool = new Pool;
    for (int i = 0; i < 2; i++) {
        in_frame(1);
        in_frame('c');
        pool->each(1);
        pool->each(*pool);
    }
    before(of(1));
    after(of("c"));
    before(in_block(true));
    after(in_block(false));
    blocks(true);
    blocks(false);
    before(of_type<int>);
    after(of_type<char>);
    lambdas();
    work();
    Node *node = new Node;
    before(node->m);
    work_in_other_file();
}
