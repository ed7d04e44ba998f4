/* Two pairs of mutexes, each in both orders by the same two calls: those of the first pair by threads that run one after the other, so
   that only the second pair can stand still. With an argument the calls are in a library of that name, which is opened then. */
#include "pairs.h"

#include <dlfcn.h>

static pthread_mutex_t a = PTHREAD_MUTEX_INITIALIZER, b = PTHREAD_MUTEX_INITIALIZER;
static pthread_mutex_t c = PTHREAD_MUTEX_INITIALIZER, d = PTHREAD_MUTEX_INITIALIZER;

__attribute__((noinline)) static void both(pthread_mutex_t *outer, pthread_mutex_t *inner) {
    pthread_mutex_lock(outer);
    pthread_mutex_lock(inner);
    pthread_mutex_unlock(inner);
    pthread_mutex_unlock(outer);
}

static void first(void) { both(&c, &d); }
static void second(void) { both(&d, &c); }

static void *a_then_b(void *with) {
    both(&a, &b);
    return with;
}

static void *b_then_a(void *with) {
    both(&b, &a);
    return with;
}

static void run_in_turn(void *(*runs)(void *with)) {
    pthread_t thread;
    pthread_create(&thread, NULL, runs, NULL);
    pthread_join(thread, NULL);
}

__attribute__((visibility("default"))) void run_all(void) {
    run_in_turn(a_then_b);
    run_in_turn(b_then_a);
    run_both();
}

int main(int count, char **words) {
    if (count == 1) {
        run_all();
        return 0;
    }
    void *library = dlopen(words[1], RTLD_NOW);
    void (*runs)(void) = (void (*)(void))dlsym(library, "run_all");
    runs();
    return 0;
}
