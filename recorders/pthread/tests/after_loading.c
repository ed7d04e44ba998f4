/* What is held after dlopen has returned. Each case is a thread of its own, and takes `a` with nothing held, further down on the stack than
   dlopen was: but for the constructor, which runs in dlopen, and the destructor, which loads a library itself and is still in dlclose. */
#include "common.h"
#include <dlfcn.h>
#include <sys/mman.h>
#include <ucontext.h>
pthread_mutex_t a = PTHREAD_MUTEX_INITIALIZER;
static const char *with_constructor, *with_destructor;

static APART void *take_a(const char *unused, int number) {
    (void)unused, (void)number;
    TAKE(&a);
    return NULL;
}

/* In a frame that has what lay on the stack before. */
static APART void take_deeper(void) {
    char room[4096];
    __asm__ volatile("" : : "r"(room) : "memory");
    take_a("", 0);
    __asm__ volatile("" : : "r"(room) : "memory");
}

static APART void *load(const char *path) {
    void *library = dlopen(path, RTLD_NOW);
    __asm__ volatile("" : : "r"(library) : "memory");
    return library;
}

static void *loads_itself(void *unused) {
    if (!dlopen("libm.so.6", RTLD_NOW))
        abort();
    take_deeper();
    return unused;
}

static void *fails(void *unused) {
    if (dlopen("libm.so.no", RTLD_NOW))
        abort();
    take_deeper();
    return unused;
}

/* Who called dlopen has returned, and its return address still lies where it was. */
static void *leaves_address(void *unused) {
    load("libm.so.no");
    take_deeper();
    return unused;
}

/* One call after the other is made at the same place. */
static void *calls_alike(void *unused) {
    static void *(*const steps[])(const char *, int) = {dlopen, take_a};
    for (volatile size_t i = 0; i < sizeof steps / sizeof *steps; i++)
        steps[i]("libm.so.6", RTLD_NOW);
    return unused;
}

static void *constructs(void *unused) {
    if (!load(with_constructor))
        abort();
    take_deeper();
    return unused;
}

static void *destroys(void *unused) {
    void *library = load(with_destructor);
    if (!library || dlclose(library) != 0)
        abort();
    take_deeper();
    return unused;
}

static void *forks(void *unused) {
    load("libm.so.no");
    pid_t child = fork();
    if (child == 0) {
        take_deeper();
        _exit(0);
    }
    waitpid(child, NULL, 0);
    return unused;
}

/* On two stacks of its own, of which the first isn't there any more when the second one, which lies lower, takes the lock. */
#define STACK 65536
static ucontext_t back;

static void load_there(void) { load("libm.so.no"); }

static void run_on(char *stack, void (*run)(void)) {
    ucontext_t there;
    getcontext(&there);
    there.uc_stack.ss_sp = stack;
    there.uc_stack.ss_size = STACK;
    there.uc_link = &back;
    makecontext(&there, run, 0);
    swapcontext(&back, &there);
}

static void *changes_stacks(void *unused) {
    char *low = mmap(NULL, 2 * STACK, PROT_READ | PROT_WRITE, MAP_PRIVATE | MAP_ANONYMOUS, -1, 0), *high = low + STACK;
    run_on(high, load_there);
    munmap(high, STACK);
    run_on(low, take_deeper);
    return unused;
}

int main(int argc, char **argv) {
    if (argc < 3)
        return 1;
    with_constructor = argv[1];
    with_destructor = argv[2];
    in_thread(loads_itself, NULL);
    in_thread(fails, NULL);
    in_thread(leaves_address, NULL);
    in_thread(calls_alike, NULL);
    in_thread(constructs, NULL);
    in_thread(destroys, NULL);
    in_thread(forks, NULL);
    in_thread(changes_stacks, NULL);
}
