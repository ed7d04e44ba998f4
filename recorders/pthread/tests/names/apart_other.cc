// The other file of apart.cc.
#include "apart.h"

__attribute__((noinline)) static void work() {
    std::mutex la;
    after(la);
}

void work_in_other_file() {
    work();
    Node *node = new Node;
    after(node->m);
}
