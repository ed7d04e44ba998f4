/* What a program does again and again, and in between what changes the meaning of that: so many turns by such a seed, as its arguments say.
   It does the same each time that it is run with these. */
#include "common.h"
#include <dlfcn.h>
#include <setjmp.h>
#include <sys/stat.h>

#define STATIC 6
#define PIECES 48

static pthread_mutex_t locks[STATIC] = {PTHREAD_MUTEX_INITIALIZER, PTHREAD_MUTEX_INITIALIZER, PTHREAD_MUTEX_INITIALIZER,
                                        PTHREAD_MUTEX_INITIALIZER, PTHREAD_MUTEX_INITIALIZER, PTHREAD_MUTEX_INITIALIZER};
static pthread_mutex_t recursive, made;
static pthread_rwlock_t reads = PTHREAD_RWLOCK_INITIALIZER, others = PTHREAD_RWLOCK_INITIALIZER;
static pthread_spinlock_t spin;
static struct piece {
    long value;
    pthread_mutex_t lock;
} * pieces[PIECES];

static unsigned long state;
static unsigned next(unsigned below) {
    state = state * 6364136223846793005ul + 1442695040888963407ul;
    return (unsigned)(state >> 33) % below;
}

/* ---- What is done again and again. */

static void nests(unsigned from, unsigned count) {
    for (unsigned i = 0; i < count; i++)
        pthread_mutex_lock(&locks[(from + i) % STATIC]);
    for (unsigned i = count; i-- > 0;)
        pthread_mutex_unlock(&locks[(from + i) % STATIC]);
}

static void visits(unsigned which) { NEST(&pieces[which]->lock, &locks[3 + which % 2]); }

static void goes_hand_over_hand(unsigned from) {
    pthread_mutex_lock(&pieces[from]->lock);
    for (unsigned i = from; i + 1 < PIECES && i < from + 4; i++) {
        pthread_mutex_lock(&pieces[i + 1]->lock);
        pthread_mutex_unlock(&pieces[i]->lock);
    }
    pthread_mutex_unlock(&pieces[from + 4 < PIECES ? from + 4 : PIECES - 1]->lock);
}

static void comes_again(unsigned depth) {
    pthread_mutex_lock(&recursive);
    if (depth)
        comes_again(depth - 1);
    TAKE(&made);
    pthread_mutex_unlock(&recursive);
}

static void looks_up(unsigned how) {
    if (how % 2)
        pthread_rwlock_rdlock(&others);
    how % 3 ? pthread_rwlock_rdlock(&reads) : pthread_rwlock_wrlock(&reads);
    pthread_spin_lock(&spin);
    pthread_spin_unlock(&spin);
    if (how % 3 && how % 5 == 0) {
        pthread_rwlock_rdlock(&reads);
        pthread_rwlock_unlock(&reads);
    }
    pthread_rwlock_unlock(&reads);
    if (how % 2)
        pthread_rwlock_unlock(&others);
}

static void tries(unsigned which) {
    pthread_mutex_lock(&locks[which % STATIC]);
    if (pthread_mutex_trylock(&locks[(which + which / STATIC) % STATIC]) == 0)
        pthread_mutex_unlock(&locks[(which + which / STATIC) % STATIC]);
    pthread_mutex_unlock(&locks[which % STATIC]);
}

static void works(unsigned what) {
    switch (what % 6) {
    case 0: nests(what / 6 % STATIC, 1 + what % 4); break;
    case 1: visits(what / 6 % PIECES); break;
    case 2: goes_hand_over_hand(what / 6 % PIECES); break;
    case 3: comes_again(what / 6 % 3); break;
    case 4: looks_up(what / 6); break;
    default: tries(what / 6);
    }
}

/* ---- What happens in between. */

static void mixes_order(unsigned what) {
    pthread_mutex_lock(&locks[0]);
    pthread_mutex_lock(&locks[1]);
    pthread_mutex_lock(&locks[2]);
    pthread_mutex_unlock(&locks[what % 3]);
    works(6 * what + 1);
    pthread_mutex_unlock(&locks[(what + 1) % 3]);
    pthread_mutex_unlock(&locks[(what + 2) % 3]);
}

static void frees(unsigned which) {
    free(pieces[which]);
    pieces[which] = malloc(sizeof *pieces[which]);
    pthread_mutex_init(&pieces[which]->lock, NULL);
}

static void frees_held(unsigned which) {
    pthread_mutex_lock(&pieces[which]->lock);
    frees(which);
}

static void makes_anew(unsigned how) {
    pthread_mutex_destroy(&made);
    if (how % 2)
        pthread_mutex_init(&made, NULL);
    else
        pthread_mutex_init(&made, NULL); /* at another place, so of another class */
}

static void assigns(unsigned which) {
    pthread_mutex_lock(&locks[which % STATIC]);
    pthread_mutex_lock(&made);
    locks[which % STATIC] = (pthread_mutex_t)PTHREAD_MUTEX_INITIALIZER;
    pthread_mutex_lock(&locks[which % STATIC]);
    pthread_mutex_unlock(&made);
    pthread_mutex_unlock(&locks[which % STATIC]);
}

static void *unlocks(void *lock) {
    nests(1, 3);
    pthread_mutex_unlock(lock);
    return NULL;
}

/* The thread has ended when it is joined, in each run: whether it has is recorded. */
static void in_ended_thread(void *(*run)(void *), void *with) {
    struct stat threads; /* which has a link for each of them */
    pthread_t thread;
    nlink_t before = stat("/proc/self/task", &threads) == 0 ? threads.st_nlink : 0;
    pthread_create(&thread, NULL, run, with);
    while (before && stat("/proc/self/task", &threads) == 0 && threads.st_nlink > before)
        usleep(100);
    pthread_join(thread, NULL);
}

static void hands_over(unsigned which) {
    pthread_mutex_lock(&locks[0]);
    if (which % 2)
        pthread_mutex_lock(&made);
    in_ended_thread(unlocks, &locks[0]);
    works(6 * which + 1);
    if (which % 2)
        pthread_mutex_unlock(&made);
}

static sigjmp_buf back;
static void jumps(int signal) {
    (void)signal;
    nests(2, 2);
    siglongjmp(back, 1);
}

static void is_left(unsigned which) {
    if (sigsetjmp(back, 1) == 0) {
        pthread_mutex_lock(&locks[which % 2]);
        pthread_mutex_lock(&locks[5]);
        raise(SIGUSR1);
    }
    works(6 * which + 4);
    pthread_mutex_unlock(&locks[5]);
    pthread_mutex_unlock(&locks[which % 2]);
}

static void forks(unsigned what) {
    pthread_mutex_lock(&locks[5]);
    pid_t child = fork();
    for (unsigned i = 0; i < 20; i++)
        works(6 * ((what + i) % 8) + 1);
    pthread_mutex_unlock(&locks[5]);
    if (child == 0) {
        for (unsigned i = 0; i < 20; i++)
            works(what + i);
        _exit(0);
    }
    waitpid(child, NULL, 0);
}

static void *runs(void *unused) {
    (void)unused;
    for (unsigned i = 0; i < 200; i++)
        works(i % 60);
    return NULL;
}

static void closes(void) {
    void *library = dlopen("libutil.so.1", RTLD_NOW);
    if (library)
        dlclose(library);
}

static void has_own(unsigned how) {
    pthread_mutex_t own = PTHREAD_MUTEX_INITIALIZER;
    for (unsigned i = 0; i < how % 7; i++) {
        pthread_mutex_lock(&own);
        works(6 * i + 3);
        pthread_mutex_unlock(&own);
    }
}

static void changes(unsigned what) {
    switch (what % 12) {
    case 0: mixes_order(what / 12); break;
    case 1: frees(what / 12 % PIECES); break;
    case 2: frees_held(what / 12 % PIECES); break;
    case 3: makes_anew(what / 12); break;
    case 4: assigns(what / 12); break;
    case 5: hands_over(what / 12); break;
    case 6: is_left(what / 12); break;
    case 7: what % 7 ? has_own(what) : forks(what / 12); break;
    case 8: in_thread(runs, NULL); break;
    case 9: closes(); break;
    case 10: has_own(what / 12); break;
    default: mixes_order(what);
    }
}

int main(int argc, char **argv) {
    long turns = argc > 1 ? atol(argv[1]) : 2000;
    state = argc > 2 ? strtoul(argv[2], NULL, 10) : 1;
    pthread_mutexattr_t how;
    pthread_mutexattr_init(&how);
    pthread_mutexattr_settype(&how, PTHREAD_MUTEX_RECURSIVE);
    pthread_mutex_init(&recursive, &how);
    pthread_mutex_init(&made, NULL);
    pthread_spin_init(&spin, 0);
    for (unsigned i = 0; i < PIECES; i++) {
        pieces[i] = malloc(sizeof *pieces[i]);
        pthread_mutex_init(&pieces[i]->lock, NULL);
    }
    signal(SIGUSR1, jumps);
    for (long i = 0; i < turns; i++)
        next(40) ? works(next(150)) : changes(next(1000));
    return 0;
}
