/* A thread that finds a routine already run would have waited for it a little earlier. With a lock held that is an order; without one it
   is none. */
#include "common.h"
static pthread_mutex_t a = PTHREAD_MUTEX_INITIALIZER;
static pthread_once_t plain = PTHREAD_ONCE_INIT;
static once_flag flag = ONCE_FLAG_INIT;

static void take_a(void) { TAKE(&a); }

static void *runs(void *unused) {
    pthread_once(&plain, take_a);
    call_once(&flag, take_a);
    return unused;
}

static void *finds(void *unused) {
    runs(unused);
    pthread_mutex_lock(&a);
    runs(unused);
    pthread_mutex_unlock(&a);
    runs(unused);
    return unused;
}

int main(void) {
    in_thread(runs, NULL);
    in_thread(finds, NULL);
}
