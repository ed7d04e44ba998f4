/* A lock is made under another one and is taken there before anybody else can know it. The other order comes later. Its maker takes it so
   once more when another thread has tried it (`tried`), or has had it (`later`), or has made it with nothing held (`before`). Or it takes it
   under another lock, when it has released the one under which it was made (`moved`): then another thread may have found it. Or another
   thread takes it so too, by a wait that gives up (`timed`).

   Or it is made with nothing held, and `global` is taken under it, as when an object goes into a list (`inserts`); by a thread that is joined
   (`by_thread`), with `global` held (`joined`). Or before that its maker has released another lock (`kept`), another thread has tried it
   (`known`), or another lock is held as well (`beside`), or another one that is new (`pair`). Or it is a static one (`statics`), or one of many
   (`many`), or what is taken under it was made by the same thread then (`both`).

   Or between making and taking it there the maker hands it on: to a thread that it starts (`started`), under a lock that it releases (`listed`),
   by a semaphore (`posted`), or at a barrier (`passed`). Nothing is handed on if it only takes and releases the new lock (`twice`), or takes a
   recursive lock that it holds once more (`recursive`), or if it starts a thread before (`earlier`). */
#include "common.h"

#include <sched.h>
#include <semaphore.h>
#include <stdatomic.h>

static pthread_mutex_t global = PTHREAD_MUTEX_INITIALIZER, other = PTHREAD_MUTEX_INITIALIZER;
static pthread_mutex_t *shared;

static int is_made;

static void make(void) {
    shared = malloc(sizeof *shared);
    pthread_mutex_init(shared, NULL);
}

static void create_or_acquire(void) {
    pthread_mutex_lock(&global);
    if (!is_made) {
        is_made = 1;
        if (!shared)
            make();
        pthread_mutex_lock(shared);
        pthread_mutex_unlock(&global);
    } else {
        pthread_mutex_unlock(&global);
        pthread_mutex_lock(shared);
    }
}

static void *use(void *unused) {
    create_or_acquire();
    TAKE(&global);
    pthread_mutex_unlock(shared);
    return unused;
}

static void *try_in_vain(void *unused) {
    if (pthread_mutex_trylock(shared) == 0)
        abort();
    return unused;
}

static void use_again(void) { NEST(&global, shared); }

static void *use_timed(void *unused) {
    struct timespec until = in_milliseconds(CLOCK_REALTIME, 1000);
    pthread_mutex_lock(&global);
    if (pthread_mutex_timedlock(shared, &until) != 0)
        abort();
    pthread_mutex_unlock(shared);
    pthread_mutex_unlock(&global);
    return unused;
}

static void take_and_give(pthread_mutex_t *lock) { TAKE(lock); }

static void *waits(void *posted) {
    while (sem_wait(posted) != 0)
        continue;
    return NULL;
}

static void *in_the_other_order(void *unused) {
    pthread_mutex_lock(shared);
    take_and_give(&global);
    pthread_mutex_unlock(shared);
    return unused;
}

static void pass_barrier(void) {
    pthread_barrier_t barrier;
    pthread_barrier_init(&barrier, NULL, 1);
    pthread_barrier_wait(&barrier);
    pthread_barrier_destroy(&barrier);
}

/* The lock is made and taken under `global`, and in between its maker does what is asked for. */
static void make_and(const char *way) {
    pthread_t waiter;
    sem_t posted;
    sem_init(&posted, 0, 0);
    if (strcmp(way, "started") != 0)
        pthread_create(&waiter, NULL, waits, &posted);
    pthread_mutex_lock(&global);
    make();
    if (strcmp(way, "started") == 0)
        pthread_create(&waiter, NULL, waits, &posted);
    if (strcmp(way, "listed") == 0)
        take_and_give(&other);
    if (strcmp(way, "posted") == 0)
        sem_post(&posted);
    if (strcmp(way, "passed") == 0)
        pass_barrier();
    if (strcmp(way, "twice") == 0)
        take_and_give(shared);
    if (strcmp(way, "recursive") == 0)
        take_and_give(&global);
    take_and_give(shared);
    pthread_mutex_unlock(&global);
    sem_post(&posted);
    pthread_join(waiter, NULL);
    in_thread(in_the_other_order, NULL);
}

static void make_recursive(pthread_mutex_t *lock) {
    pthread_mutexattr_t how;
    pthread_mutexattr_init(&how);
    pthread_mutexattr_settype(&how, PTHREAD_MUTEX_RECURSIVE);
    pthread_mutex_init(lock, &how);
}

static int is_among(const char *way, const char *ways) {
    return *way && strstr(ways, way) != NULL;
}

static void make_and_move_on(void) {
    pthread_mutex_lock(&global);
    make();
    pthread_mutex_lock(&other);
    pthread_mutex_unlock(&global);
    TAKE(shared);
    pthread_mutex_unlock(&other);
}

THREAD(use_other, NEST(shared, &other))

/* ---- What is made with nothing held. */

static atomic_int may_try, is_done;

static void await(atomic_int *state) {
    while (!*state)
        sched_yield();
}

static void *try_when_asked(void *unused) {
    await(&may_try);
    try_in_vain(unused);
    is_done = 1;
    return unused;
}

static void have_tried(void) {
    may_try = 1;
    await(&is_done);
}

static pthread_mutex_t *inner = &global;

/* The lock is taken, under another one or not, and `global` with it held. */
static void insert(pthread_mutex_t *under, void (*first)(void)) {
    if (under)
        pthread_mutex_lock(under);
    pthread_mutex_lock(shared);
    if (first)
        first();
    take_and_give(inner);
    pthread_mutex_unlock(shared);
    if (under)
        pthread_mutex_unlock(under);
}

static void *make_and_insert(void *unused) {
    make();
    insert(NULL, NULL);
    is_done = 1;
    return unused;
}

static void make_in_thread(int is_held) {
    pthread_t maker;
    pthread_create(&maker, NULL, make_and_insert, NULL);
    await(&is_done);
    if (is_held)
        pthread_mutex_lock(&global);
    pthread_join(maker, NULL);
    if (is_held)
        pthread_mutex_unlock(&global);
}

static void make_known(void) {
    pthread_t tries;
    pthread_create(&tries, NULL, try_when_asked, NULL);
    make();
    insert(NULL, have_tried);
    pthread_join(tries, NULL);
}

static void make_pair(void) {
    pthread_mutex_t second;
    pthread_mutex_init(&second, NULL);
    make();
    insert(&second, NULL);
}

static void make_both(void) {
    make();
    inner = malloc(sizeof *inner);
    pthread_mutex_init(inner, NULL);
    insert(NULL, NULL);
}

static void make_static(void) {
    static pthread_mutex_t lock;
    pthread_mutex_init(&lock, NULL);
    shared = &lock;
    insert(NULL, NULL);
}

#define MANY 40
static void make_many(void) {
    pthread_mutex_t *all = malloc(MANY * sizeof *all);
    for (int i = 0; i < MANY; i++)
        pthread_mutex_init(&all[i], NULL);
    shared = &all[MANY - 1];
    insert(NULL, NULL);
}

static void make_here(void) { make_and_insert(NULL); }
static void make_by_thread(void) { make_in_thread(0); }
static void make_by_joined(void) { make_in_thread(1); }

static void make_and_keep(void) {
    make();
    take_and_give(&other);
    insert(NULL, NULL);
}

static void make_beside(void) {
    make();
    insert(&other, NULL);
}

static const struct {
    const char *name;
    void (*run)(void);
} ways[] = {{"inserts", make_here},  {"by_thread", make_by_thread}, {"joined", make_by_joined}, {"kept", make_and_keep},  {"known", make_known},
            {"beside", make_beside}, {"pair", make_pair},           {"both", make_both},        {"statics", make_static}, {"many", make_many}};

THREAD(use_inserted, NEST(inner, shared))

static int has_inserted(const char *way) {
    for (size_t i = 0; i < sizeof ways / sizeof *ways; i++)
        if (strcmp(way, ways[i].name) == 0)
            ways[i].run();
    return shared != NULL;
}

int main(int argc, char **argv) {
    const char *way = argc > 1 ? argv[1] : "";
    if (strcmp(way, "recursive") == 0)
        make_recursive(&global);
    if (is_among(way, "started listed posted passed twice recursive earlier")) {
        make_and(way);
        return 0;
    }
    if (strcmp(way, "moved") == 0) {
        make_and_move_on();
        in_thread(use_other, NULL);
        return 0;
    }
    if (has_inserted(way)) {
        in_thread(use_inserted, NULL);
        return 0;
    }
    if (strcmp(way, "before") == 0)
        make();
    use(NULL);
    if (strcmp(way, "tried") == 0) {
        pthread_mutex_lock(shared);
        in_thread(try_in_vain, NULL);
        pthread_mutex_unlock(shared);
        use_again();
    }
    in_thread(use, NULL);
    if (strcmp(way, "later") == 0)
        use_again();
    if (strcmp(way, "timed") == 0)
        in_thread(use_timed, NULL);
}
