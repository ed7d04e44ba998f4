/* Tries that fail are repeated after the locks that were held have been given back: no thread waits with one held, so nothing is left
   out. In the third way one lock is held all the time, under the one that is given back, and that is waiting. */
#include "common.h"
static pthread_mutex_t a = PTHREAD_MUTEX_INITIALIZER, b = PTHREAD_MUTEX_INITIALIZER, c = PTHREAD_MUTEX_INITIALIZER,
                       outer = PTHREAD_MUTEX_INITIALIZER;

static void try_under(pthread_mutex_t *lock) {
    pthread_mutex_lock(lock);
    if (pthread_mutex_trylock(&b) == 0)
        abort();
    pthread_mutex_unlock(lock);
}

static void *tries(void *held) {
    if (held)
        pthread_mutex_lock(held);
    for (int i = 0; i < 4; i++)
        try_under(i % 2 ? &a : &c);
    for (int i = 0; i < 4; i++)
        try_under(&a);
    if (held)
        pthread_mutex_unlock(held);
    return NULL;
}

int main(int count, char **words) {
    (void)words;
    pthread_mutex_lock(&b);
    in_thread(tries, count > 1 ? &outer : NULL);
    pthread_mutex_unlock(&b);
}
