/* Locks in frames whose order is said, and which no call initialises. The word says what is done: two of one name are taken by index,
   downwards, or by address and as subclasses. */
#include <lockdep.h>
#include <pthread.h>
#include <string.h>

static void take_two(pthread_mutex_t *first, pthread_mutex_t *second, unsigned subclass) {
    for (unsigned i = 0; i < 2; i++) {
        pthread_mutex_t *lock = i ? second : first;
        if (subclass)
            LOCKDEP_NESTED(lock, subclass);
        pthread_mutex_lock(lock);
    }
    pthread_mutex_unlock(second);
    pthread_mutex_unlock(first);
}

int main(int count, char **words) {
    pthread_mutex_t pool[2] = {PTHREAD_MUTEX_INITIALIZER, PTHREAD_MUTEX_INITIALIZER};
    const char *word = count > 1 ? words[1] : "";
    unsigned is_down = strcmp(word, "down") == 0, is_address = strcmp(word, "address") == 0;
    for (unsigned i = 0; i < 2; i++) {
        LOCKDEP_CLASS(&pool[i], "pool");
        if (is_address)
            LOCKDEP_BY_ADDRESS(&pool[i]);
        else
            LOCKDEP_ORDERED(&pool[i], i);
    }
    take_two(&pool[is_down], &pool[!is_down], is_address);
    return 0;
}
