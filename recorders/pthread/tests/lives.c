/* Two locks that lie at one place one after the other: the first is taken before `a`, and the second after it. So no lock is taken both
   ways, however the first one has ended. Writes in how many of the ways to end both lay at the same address. Two other locks are each
   taken both ways, with `b` and with `d`, the latter in the frame of a thread that waits for who takes it; and so is, with `c`, one
   that has come after forty others. */
#include "common.h"
#include <sys/mman.h>
static pthread_mutex_t a = PTHREAD_MUTEX_INITIALIZER, b = PTHREAD_MUTEX_INITIALIZER, c = PTHREAD_MUTEX_INITIALIZER,
                       d = PTHREAD_MUTEX_INITIALIZER;
static __thread pthread_mutex_t own;

#define LIVES 2
#define MANY 40
static void *addresses[LIVES];
static int alike;

static void *take_before_a(void *lock) {
    NEST(lock, &a);
    return NULL;
}

static void *take_after_a(void *lock) {
    NEST(&a, lock);
    return NULL;
}

static void note(void *lock, int life) {
    addresses[life] = lock;
    alike += life > 0 && addresses[0] == lock;
}

static void use(void *lock, int life) {
    note(lock, life);
    in_thread(life ? take_after_a : take_before_a, lock);
}

/* Volatile, so that no call is there twice. */
#define EACH_LIFE for (volatile int life = 0; life < LIVES; life++)

static APART void destroyed(void) {
    static pthread_mutex_t lock;
    EACH_LIFE {
        pthread_mutex_init(&lock, NULL);
        use(&lock, life);
        pthread_mutex_destroy(&lock);
    }
}

static APART void initialised_again(void) {
    static pthread_rwlock_t lock;
    EACH_LIFE {
        pthread_rwlock_init(&lock, NULL);
        note(&lock, life);
        if (life)
            pthread_mutex_lock(&a);
        pthread_rwlock_wrlock(&lock);
        if (!life)
            pthread_mutex_lock(&a);
        pthread_mutex_unlock(&a);
        pthread_rwlock_unlock(&lock);
    }
}

static APART void freed(void) {
    EACH_LIFE {
        pthread_mutex_t *lock = malloc(sizeof *lock);
        memset(lock, 0, sizeof *lock);
        use(lock, life);
        free(lock);
    }
}

static APART void reallocated(void) {
    pthread_mutex_t *lock = NULL;
    EACH_LIFE {
        lock = realloc(lock, sizeof *lock);
        memset(lock, 0, sizeof *lock);
        use(lock, life);
    }
}

static APART void unmapped(void) {
    EACH_LIFE {
        void *lock = mmap(NULL, 4096, PROT_READ | PROT_WRITE, MAP_PRIVATE | MAP_ANONYMOUS, -1, 0);
        use(lock, life);
        munmap(lock, 4096);
    }
}

static APART void *with_frame(void *life) {
    pthread_mutex_t local = PTHREAD_MUTEX_INITIALIZER;
    note(&local, life != NULL);
    (life ? take_after_a : take_before_a)(&local);
    return NULL;
}

static APART void *with_own(void *life) {
    note(&own, life != NULL);
    (life ? take_after_a : take_before_a)(&own);
    return NULL;
}

static APART void ended(void *(*thread)(void *)) {
    EACH_LIFE
        in_thread(thread, life ? &alike : NULL);
}

static void use_both_ways(pthread_mutex_t *lock, pthread_mutex_t *other) {
    in_thread(nest_pair, (pthread_mutex_t *[]){lock, other});
    in_thread(nest_pair, (pthread_mutex_t *[]){other, lock});
}

static APART void kept(void) {
    static pthread_mutex_t lock;
    pthread_mutex_init(&lock, NULL);
    use_both_ways(&lock, &b);
}

static APART void *lent(void *unused) {
    pthread_mutex_t local = PTHREAD_MUTEX_INITIALIZER;
    use_both_ways(&local, &d);
    return unused;
}

static APART void after_many(void) {
    static pthread_mutex_t lock;
    for (volatile int i = 0; i <= MANY; i++) {
        pthread_mutex_init(&lock, NULL);
        if (i < MANY)
            NEST(&c, &lock);
        else
            use_both_ways(&lock, &c);
        pthread_mutex_destroy(&lock);
    }
}

int main(void) {
    destroyed();
    initialised_again();
    freed();
    reallocated();
    unmapped();
    ended(with_frame);
    ended(with_own);
    printf("%d alike\n", alike);
    kept();
    in_thread(lent, NULL);
    after_many();
}
