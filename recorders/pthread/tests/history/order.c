/* Threads that take locks as they come, and count under each how often it was taken: order THREADS ROUNDS prints who took each lock, one after the other,
   as `LOCK THREAD THREAD ..`. */
#include <pthread.h>
#include <stdio.h>
#include <stdlib.h>
#include <time.h>

static pthread_mutex_t first = PTHREAD_MUTEX_INITIALIZER, second = PTHREAD_MUTEX_INITIALIZER;
static pthread_rwlock_t written = PTHREAD_RWLOCK_INITIALIZER;
static pthread_spinlock_t spun;
enum { LOCKS = 4 };
static const char *const names[LOCKS] = {"first", "second", "written", "spun"};
static unsigned char *takers[LOCKS];
static long taken[LOCKS], rounds;

static __attribute__((noinline)) void init_spun(void) {
    pthread_spin_init(&spun, 0);
    __asm__ volatile("");
}

static void note(int lock, long thread) { takers[lock][taken[lock]++] = (unsigned char)thread; }

static void take_mutex(int lock, pthread_mutex_t *mutex, long thread, unsigned how) {
    struct timespec until = {.tv_sec = time(NULL) + 1000};
    if (how % 3 == 0 ? pthread_mutex_trylock(mutex) : how % 3 == 1 ? pthread_mutex_timedlock(mutex, &until) : pthread_mutex_lock(mutex))
        return;
    note(lock, thread);
    if (how % 5 == 0 && lock == 0)
        take_mutex(1, &second, thread, 2);
    pthread_mutex_unlock(mutex);
}

static void take_one(long thread, unsigned how) {
    if (how % 4 == 0) {
        pthread_rwlock_rdlock(&written);
        pthread_rwlock_unlock(&written);
        pthread_rwlock_wrlock(&written);
        note(2, thread);
        pthread_rwlock_unlock(&written);
    } else if (how % 4 == 1) {
        pthread_spin_lock(&spun);
        note(3, thread);
        pthread_spin_unlock(&spun);
    } else {
        take_mutex(how % 4 - 2, how % 4 == 2 ? &first : &second, thread, how / 4);
    }
}

static void *take_all(void *thread) {
    unsigned seed = (unsigned)(long)thread;
    for (long i = 0; i < rounds; i++)
        take_one((long)thread, (unsigned)rand_r(&seed));
    return NULL;
}

int main(int count, char **words) {
    enum { MOST = 64 };
    long threads = count > 2 ? atol(words[1]) : 0;
    pthread_t started[MOST];
    rounds = threads > 0 && threads <= MOST ? atol(words[2]) : 0;
    for (int lock = 0; lock < LOCKS; lock++)
        takers[lock] = malloc((size_t)(2 * threads * rounds + 1));
    init_spun();
    for (long i = 0; i < threads; i++)
        pthread_create(&started[i], NULL, take_all, (void *)i);
    for (long i = 0; i < threads; i++)
        pthread_join(started[i], NULL);
    for (int lock = 0; lock < LOCKS; lock++) {
        printf("%s", names[lock]);
        for (long i = 0; i < taken[lock]; i++)
            printf(" %d", takers[lock][i]);
        putchar('\n');
    }
    return 0;
}
