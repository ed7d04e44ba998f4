/* soak SECONDS SEED [jumps]: threads and signals' handlers do what they like at random, both of them: take and try locks, allocate, load and unload a
   library, fork, start and join threads, change masks and handlers, wait with another mask, and, if asked to, jump out of handlers. It can't stand still by
   itself: handlers do what locks inside the C library only where `is_free` says that nothing of it was interrupted; locks of handlers are taken
   by the outermost handler alone, and tried by others. Status 0 is what is expected. */
#include "common.h"
#include <dlfcn.h>
#include <poll.h>
#include <stdatomic.h>
#include <stdbool.h>
#include <sys/mman.h>
#include <sys/syscall.h>
#include <sys/time.h>

#define THREADS 4
#define LOCKS 6
static pthread_mutex_t locks[LOCKS], of_handlers[LOCKS];
static LOCK(outer_of_thread); static LOCK(inner_of_thread); /* (who is interrupted by the handler that joins one may hold any other) */
static pthread_rwlock_t table = PTHREAD_RWLOCK_INITIALIZER;
static atomic_int is_over, children, runs;
static __thread volatile int is_free, depth, may_jump;
static __thread unsigned random_state;
static __thread sigjmp_buf out;
static __thread int own_number;
static pid_t tasks[THREADS]; /* of the system's */
static unsigned seed;
static bool are_jumps;
static const int signals[] = {SIGUSR1, SIGUSR2, SIGALRM, SIGPROF};

static unsigned chance(unsigned below) {
    random_state = random_state * 1103515245u + 12345u;
    return (random_state >> 16) % below;
}

static void take_fresh(void) {
    pthread_mutex_t *lock = malloc(sizeof *lock + chance(3000));
    pthread_mutex_init(lock, NULL);
    with(lock);
    pthread_mutex_destroy(lock);
    free(lock);
}

static void fork_one(void) {
    sigset_t all, before;
    sigfillset(&all);
    pthread_sigmask(SIG_BLOCK, &all, &before);
    pid_t child = fork();
    if (child == 0) {
        pthread_mutex_t own = PTHREAD_MUTEX_INITIALIZER;
        with(&own);
        _exit(0);
    }
    int status = 0;
    while (child > 0 && waitpid(child, &status, 0) != child)
        continue;
    if (status)
        abort();
    children++;
    pthread_sigmask(SIG_SETMASK, &before, NULL);
}

static void *short_thread(void *unused) {
    random_state = seed + (unsigned)(uintptr_t)&unused;
    if (chance(2)) {
        pthread_mutex_lock(&outer_of_thread);
        with(&inner_of_thread);
        pthread_mutex_unlock(&outer_of_thread);
    }
    return unused;
}

static void load_one(void) {
    void *library = dlopen("libm.so.6", RTLD_NOW);
    if (library)
        dlclose(library);
}

/* What locks inside the C library. */
static void use_library(void) {
    is_free = 0;
    switch (chance(12)) {
    case 0: load_one(); break;
    case 1: fork_one(); break;
    case 2: in_thread(short_thread); break;
    default: take_fresh();
    }
    is_free = 1;
}

static void take_of_handlers(void) {
    unsigned first = chance(LOCKS - 1), second = first + 1 + chance(LOCKS - first - 1);
    pthread_mutex_lock(&of_handlers[first]);
    if (chance(2))
        with(&of_handlers[second]);
    pthread_mutex_unlock(&of_handlers[first]);
}

static void try_one(void) {
    pthread_mutex_t *lock = &of_handlers[chance(LOCKS)];
    if (pthread_mutex_trylock(lock) == 0)
        pthread_mutex_unlock(lock);
}

static void on_signal(int number) {
    int saved = errno, was_free = is_free, may = may_jump;
    may_jump = 0;
    depth++;
    runs++;
    pthread_mutex_t own = PTHREAD_MUTEX_INITIALIZER;
    if (chance(3) == 0)
        with(&own);
    if (depth == 1 && chance(2))
        take_of_handlers();
    else
        try_one();
    if (was_free && depth == 1 && chance(8) == 0)
        use_library();
    if (chance(16) == 0)
        number = signals[chance(4)], block(number);
    is_free = was_free;
    depth--;
    errno = saved;
    if (may && chance(2))
        siglongjmp(out, 1);
    may_jump = may;
}

static void set_handlers(void) {
    int number = signals[chance(4)];
    handle(number, on_signal, (chance(2) ? SA_RESTART : 0) | (number == SIGUSR2 ? SA_ONSTACK : 0));
}

static void take_in_order(void) {
    unsigned first = chance(LOCKS - 1), second = first + 1 + chance(LOCKS - first - 1);
    pthread_mutex_lock(&locks[first]);
    pthread_mutex_lock(&locks[second]);
    bool is_crossed = chance(2);
    pthread_mutex_unlock(&locks[is_crossed ? first : second]);
    pthread_mutex_unlock(&locks[is_crossed ? second : first]);
}

static void read_or_write(void) {
    if (chance(4))
        pthread_rwlock_rdlock(&table);
    else
        pthread_rwlock_wrlock(&table);
    pthread_rwlock_unlock(&table);
}

/* A handler jumps out of the calls of a lock that nobody else has. */
static void be_jumped_out_of(void) {
    static __thread pthread_mutex_t own;
    pthread_mutex_init(&own, NULL);
    is_free = 0;
    if (sigsetjmp(out, 1) == 0) {
        may_jump = 1;
        for (int i = 0; i < 200; i++)
            with(&own);
        may_jump = 0;
    }
    pthread_mutex_init(&own, NULL);
    is_free = 1;
}

static void wait_with_another(void) {
    struct timespec soon = {0, 200000};
    sigset_t none;
    sigemptyset(&none);
    ppoll(NULL, 0, &soon, &none);
}

static void change_mask(void) {
    int number = signals[chance(4)];
    block(number);
    take_in_order();
    if (chance(4))
        unblock(number);
    else {
        sigset_t none;
        sigemptyset(&none);
        pthread_sigmask(SIG_SETMASK, &none, NULL);
    }
}

static void send_one(void) {
    int number = signals[chance(2)];
    if (chance(2))
        kill(getpid(), number);
    else
        syscall(SYS_tgkill, getpid(), tasks[chance(THREADS)], number);
}

static void *works(void *number) {
    stack_t stack = {.ss_sp = malloc(65536), .ss_size = 65536};
    own_number = (int)(uintptr_t)number;
    random_state = seed * 7919u + (unsigned)own_number;
    tasks[own_number] = (pid_t)syscall(SYS_gettid);
    sigaltstack(&stack, NULL);
    is_free = 1;
    while (!is_over)
        switch (chance(16)) {
        case 0: use_library(); break;
        case 1: are_jumps ? be_jumped_out_of() : take_in_order(); break;
        case 2: wait_with_another(); break;
        case 3: change_mask(); break;
        case 4: send_one(); break;
        case 5: set_handlers(); break;
        case 6: read_or_write(); break;
        default: take_in_order();
        }
    sigset_t all;
    sigfillset(&all);
    pthread_sigmask(SIG_BLOCK, &all, NULL);
    is_free = 0;
    return number;
}

static void start_timer(long nanoseconds) {
    timer_t timer;
    struct itimerspec often = {{0, nanoseconds}, {0, nanoseconds}};
    timer_create(CLOCK_MONOTONIC, NULL, &timer);
    timer_settime(timer, 0, &often, NULL);
}

int main(int count, char **words) {
    int seconds = count > 1 ? atoi(words[1]) : 5;
    seed = count > 2 ? (unsigned)atoi(words[2]) : 1;
    are_jumps = count > 3;
    struct itimerval profile = {{0, 2000}, {0, 2000}};
    pthread_t threads[THREADS];
    for (int i = 0; i < LOCKS; i++) {
        pthread_mutex_init(&locks[i], NULL);
        pthread_mutex_init(&of_handlers[i], NULL);
    }
    for (int i = 0; i < 4; i++)
        handle(signals[i], on_signal, SA_RESTART | (signals[i] == SIGUSR2 ? SA_ONSTACK : 0));
    for (uintptr_t i = 0; i < THREADS; i++)
        pthread_create(&threads[i], NULL, works, (void *)i);
    sigset_t all;
    sigfillset(&all);
    pthread_sigmask(SIG_BLOCK, &all, NULL);
    start_timer(150000 + seed % 7 * 50000);
    setitimer(ITIMER_PROF, &profile, NULL);
    struct timespec whole = {seconds, 0};
    nanosleep(&whole, NULL);
    is_over = 1;
    for (int i = 0; i < THREADS; i++)
        pthread_join(threads[i], NULL);
    printf("runs %d, children %d\n", runs, children);
    return 0;
}
