/* A jump out of a function that has taken a lock: it is held until it is released. A handler jumps out of a signal, too: the lock that it has taken
   belongs to what it has interrupted then. */
#include "common.h"
#include <setjmp.h>
#include <signal.h>
static pthread_mutex_t a = PTHREAD_MUTEX_INITIALIZER, b = PTHREAD_MUTEX_INITIALIZER, c = PTHREAD_MUTEX_INITIALIZER;
static jmp_buf out;
static sigjmp_buf out_of_signal;

static void takes_and_jumps(void) {
    pthread_mutex_lock(&b);
    longjmp(out, 1);
}

static void handler(int unused) {
    (void)unused;
    pthread_mutex_lock(&c);
    siglongjmp(out_of_signal, 1);
}

int main(void) {
    pthread_mutex_lock(&a);
    if (setjmp(out) == 0)
        takes_and_jumps();
    pthread_mutex_unlock(&b);
    signal(SIGUSR1, handler);
    if (sigsetjmp(out_of_signal, 1) == 0)
        raise(SIGUSR1);
    pthread_mutex_unlock(&c);
    pthread_mutex_unlock(&a);
}
