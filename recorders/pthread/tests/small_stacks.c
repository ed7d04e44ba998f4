/* A call of malloc from wide stacks, and then from a stack of the program's own making, which ends a few bytes above the call and has no
   memory behind it: nothing is read there. */
#include <alloca.h>
#include <sys/mman.h>
#include <ucontext.h>
#include "common.h"

#define STACKS 1000
#define CALLS 400
#define DEPTH 12
#define WIDE 8192
#define STEP 16
#define SMALL_STACK 65536
#define BEHIND (4 << 20)

static ucontext_t outside, inside;

static APART void *piece(void) { return malloc(sizeof(pthread_mutex_t)); }

static APART void *deep(int depth, size_t bytes) {
    volatile char *space = alloca(bytes);
    space[0] = 1;
    void *made = depth ? deep(depth - 1, bytes) : piece();
    space[0] = 2;
    return made;
}

static void call_often(void) {
    for (size_t i = 1; i <= CALLS; i++)
        free(deep(0, i * STEP));
    swapcontext(&inside, &outside);
}

/* A thread's stack lies close to what is mapped afterwards, so nothing else tells that a small one isn't part of it. */
static void *call_in_thread(void *unused) {
    (void)unused;
    for (size_t i = 0; i < STACKS; i++)
        free(deep(DEPTH, WIDE + i * STEP));
    char *stack = mmap(NULL, SMALL_STACK + BEHIND, PROT_READ | PROT_WRITE, MAP_PRIVATE | MAP_ANONYMOUS, -1, 0);
    mprotect(stack + SMALL_STACK, BEHIND, PROT_NONE);
    getcontext(&inside);
    inside.uc_stack.ss_sp = stack;
    inside.uc_stack.ss_size = SMALL_STACK;
    makecontext(&inside, call_often, 0);
    swapcontext(&outside, &inside);
    return NULL;
}

int main(void) {
    in_thread(call_in_thread, NULL);
    return 7;
}
