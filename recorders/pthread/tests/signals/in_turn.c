/* One thread takes b with a held, and a second one holds b when a signal comes in, whose handler takes a: an inversion of a and b. The second thread is
   started when the first one was joined; `beside`: before that. */
#include "common.h"
static LOCK(a);
static LOCK(b);
static void on_usr1(int number) { (void)number; with(&a); }
static void *nests(void *unused) {
    pthread_mutex_lock(&a);
    with(&b);
    pthread_mutex_unlock(&a);
    return unused;
}
static void *gets_it(void *unused) {
    with(&b);
    raise(SIGUSR1);
    with(&b);
    return unused;
}
int main(int count, char **words) {
    pthread_t first, second;
    (void)words;
    handle(SIGUSR1, on_usr1, 0);
    pthread_create(&first, NULL, nests, NULL);
    if (count == 1) {
        pthread_join(first, NULL);
        in_thread(gets_it);
        return 0;
    }
    pthread_create(&second, NULL, gets_it, NULL);
    pthread_join(first, NULL);
    pthread_join(second, NULL);
}
