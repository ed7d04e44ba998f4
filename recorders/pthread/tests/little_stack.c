/* A thread takes its first locks with 1,500 bytes of its stack left, and a signal handler takes some on the smallest stack that the system
   allows for one and 1,100 bytes more. The calls are found before, since the loader needs more than that to find them. */
#include "common.h"
#include <sys/mman.h>
#define PAGE 4096
#define LEFT_TO_A_THREAD 1500
#define MORE_FOR_A_HANDLER 1100

static pthread_mutex_t a = PTHREAD_MUTEX_INITIALIZER, b = PTHREAD_MUTEX_INITIALIZER, c = PTHREAD_MUTEX_INITIALIZER;
static int (*volatile lock)(pthread_mutex_t *) = pthread_mutex_lock;
static int (*volatile unlock)(pthread_mutex_t *) = pthread_mutex_unlock;

static void take_two(pthread_mutex_t *first, pthread_mutex_t *second) {
    lock(first);
    lock(second);
    unlock(second);
    unlock(first);
}

APART static void take_below(size_t used) {
    char *room = __builtin_alloca(used);
    __asm__ volatile("" : : "r"(room) : "memory");
    take_two(&a, &b);
}

static void *run(void *unused) {
    pthread_attr_t how;
    void *lowest;
    size_t size;
    pthread_getattr_np(pthread_self(), &how);
    pthread_attr_getstack(&how, &lowest, &size);
    pthread_attr_destroy(&how);
    take_below((size_t)((char *)__builtin_frame_address(0) - (char *)lowest) - LEFT_TO_A_THREAD);
    return unused;
}

static void handle(int unused) {
    (void)unused;
    take_two(&a, &c);
}

static void handle_on_a_small_stack(void) {
    size_t size = ((size_t)sysconf(_SC_MINSIGSTKSZ) + MORE_FOR_A_HANDLER) & ~(size_t)15;
    char *room = mmap(NULL, 16 * PAGE, PROT_READ | PROT_WRITE, MAP_PRIVATE | MAP_ANONYMOUS, -1, 0);
    mprotect(room, PAGE, PROT_NONE);
    stack_t stack = {.ss_sp = room + PAGE, .ss_size = size};
    struct sigaction action = {.sa_handler = handle, .sa_flags = SA_ONSTACK};
    sigaltstack(&stack, NULL);
    sigaction(SIGUSR1, &action, NULL);
    raise(SIGUSR1);
}

int main(void) {
    in_thread(run, NULL);
    handle_on_a_small_stack();
}
