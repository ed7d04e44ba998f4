/* Locks of classes whose order is said. The word says what is done: so many locks of a class are taken by index, downwards, with one index
   twice, by address, by tries, with another class in between, or by a thread that waits at the end. */
#include "../asleep.h"
#include <lockdep.h>
#include <pthread.h>
#include <signal.h>
#include <string.h>
#include <unistd.h>

static pthread_mutex_t pool[40], other = PTHREAD_MUTEX_INITIALIZER;

static void begin(const char *word) {
    for (unsigned i = 0; i < 40; i++) {
        pthread_mutex_init(&pool[i], NULL);
        if (strcmp(word, "address") == 0)
            LOCKDEP_BY_ADDRESS(&pool[i]);
        else if (strcmp(word, "mixed") != 0 || i != 1)
            LOCKDEP_ORDERED(&pool[i], strcmp(word, "same") == 0 ? 7 : i);
        LOCKDEP_CLASS(&pool[i], "pool");
    }
}

__attribute__((noinline)) static void take_two(unsigned first, unsigned second) {
    pthread_mutex_lock(&pool[first]);
    pthread_mutex_lock(&pool[second]);
    pthread_mutex_unlock(&pool[second]);
    pthread_mutex_unlock(&pool[first]);
}

static void take_all(void) {
    for (unsigned i = 0; i < 40; i++)
        pthread_mutex_lock(&pool[i]);
    pthread_mutex_lock(&other);
    pthread_mutex_unlock(&other);
    for (unsigned i = 0; i < 40; i++)
        pthread_mutex_unlock(&pool[i]);
}

/* One and the other way round, with a lock that is held before both. */
static void take_under(unsigned lock) {
    pthread_mutex_lock(&pool[0]);
    pthread_mutex_lock(&pool[lock]);
    pthread_mutex_lock(&other);
    pthread_mutex_unlock(&other);
    pthread_mutex_unlock(&pool[0]);
    pthread_mutex_unlock(&pool[lock]);
    pthread_mutex_lock(&other);
    pthread_mutex_lock(&pool[lock]);
    pthread_mutex_unlock(&pool[lock]);
    pthread_mutex_unlock(&other);
}

static void try_downwards(void) {
    pthread_mutex_lock(&pool[5]);
    if (pthread_mutex_trylock(&pool[3]) == 0)
        pthread_mutex_unlock(&pool[3]);
    pthread_mutex_unlock(&pool[5]);
}

static void *wait_for_one(void *nothing) {
    take_two(0, 1);
    return nothing;
}

/* The process is killed while a thread that holds one waits for the next. */
static void be_killed(void) {
    pthread_t thread;
    take_two(0, 1); /* which gives them their numbers */
    pthread_mutex_lock(&pool[1]);
    if (pthread_create(&thread, NULL, wait_for_one, NULL) == 0)
        while (pthread_mutex_trylock(&pool[0]) == 0) {
            pthread_mutex_unlock(&pool[0]);
            usleep(1000);
        }
    await_asleep();
    kill(getpid(), SIGKILL);
}

int main(int count, char **words) {
    const char *word = count > 1 ? words[1] : "";
    begin(word);
    if (strcmp(word, "all") == 0 || strcmp(word, "address") == 0)
        take_all();
    else if (strcmp(word, "down") == 0)
        for (int i = 0; i < 3; i++)
            take_two(5, 3);
    else if (strcmp(word, "same") == 0)
        take_two(3, 5);
    else if (strcmp(word, "mixed") == 0)
        take_two(0, 1);
    else if (strcmp(word, "under") == 0)
        take_under(4);
    else if (strcmp(word, "wait") == 0)
        be_killed();
    else
        try_downwards();
    return 0;
}
