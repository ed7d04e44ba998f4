/* Threads with names: given by itself before its first lock and after it, by prctl, by its starter, and none. Two take
   their locks in opposite orders. One that takes no lock is named, and the next thread may get its number. */
#include "common.h"
#include <sys/prctl.h>

static pthread_mutex_t a = PTHREAD_MUTEX_INITIALIZER, b = PTHREAD_MUTEX_INITIALIZER, gate = PTHREAD_MUTEX_INITIALIZER;

static void *pays(void *unused) {
    pthread_setname_np(pthread_self(), "payer");
    NEST(&a, &b);
    return unused;
}

static void *audits(void *unused) {
    NEST(&b, &a);
    pthread_setname_np(pthread_self(), "the\nauditor");
    return unused;
}

THREAD(waits, TAKE(&gate))

static void *calls_itself(void *unused) {
    prctl(PR_SET_NAME, "one-of-more-than-15-bytes");
    return waits(unused);
}

static void *ends(void *unused) { return unused; }

static void run(void *(*what)(void *), const char *name) {
    pthread_t thread;
    pthread_mutex_lock(&gate);
    if (pthread_create(&thread, NULL, what, NULL) == 0) {
        if (name)
            pthread_setname_np(thread, name);
        pthread_mutex_unlock(&gate);
        pthread_join(thread, NULL);
    }
}

int main(void) {
    run(pays, NULL);
    run(audits, NULL);
    run(waits, "waiter-of-15-by");
    run(calls_itself, NULL);
    run(ends, "ends");
    run(waits, NULL);
    return 0;
}
