/* A timer's handler, every 50 microseconds, that makes, takes and gives back locks, into two threads that take new locks under others, allocate,
   map memory, load and unload a library, start threads and fork. It does 3,000 rounds, or as many as its argument says; each child, and the program, ends with 0. */
#include "common.h"
#include <dlfcn.h>
#include <sys/mman.h>
static int rounds = 3000;

static LOCK(of_handler); static LOCK(outer); static LOCK(inner); static LOCK(of_thread); static LOCK(of_child);
static pthread_rwlock_t table = PTHREAD_RWLOCK_INITIALIZER;
static volatile sig_atomic_t runs;

static void take_made(size_t size) {
    pthread_mutex_t *lock = malloc(size);
    pthread_mutex_init(lock, NULL);
    with(lock);
    pthread_mutex_destroy(lock);
    free(lock);
}

static void on_alarm(int number) {
    (void)number;
    int saved = errno;
    pthread_mutex_t own;
    pthread_mutex_init(&own, NULL);
    pthread_mutex_lock(&own);
    with(&of_handler);
    pthread_mutex_unlock(&own);
    pthread_mutex_destroy(&own);
    runs++;
    errno = saved;
}

static void *takes_one(void *unused) {
    with(&of_thread);
    return unused;
}

static void fork_one(void) {
    int status = 1;
    pid_t child = fork();
    if (child == 0) {
        with(&of_child); /* the other thread may have had one of the others */
        _exit(0);
    }
    while (waitpid(child, &status, 0) != child)
        continue;
    if (status)
        abort();
}

static void do_round(int round) {
    for (int i = 0; i < 50; i++) {
        pthread_mutex_lock(&outer);
        with(&inner);
        block(SIGALRM); /* so that malloc isn't interrupted by a handler that shares it: that would be the program's own fault */
        take_made(sizeof(pthread_mutex_t) + (size_t)(i * 100));
        unblock(SIGALRM);
        pthread_mutex_unlock(&outer);
        pthread_rwlock_rdlock(&table);
        pthread_rwlock_unlock(&table);
    }
    pthread_mutex_t *mapped = mmap(NULL, 8192, PROT_READ | PROT_WRITE, MAP_SHARED | MAP_ANONYMOUS, -1, 0);
    with(mapped);
    munmap(mapped, 8192);
    block(SIGALRM);
    if (round % 10 == 0)
        in_thread(takes_one);
    void *library = round % 5 == 0 ? dlopen("libm.so.6", RTLD_NOW) : NULL;
    if (library)
        dlclose(library);
    unblock(SIGALRM);
    if (round % 50 == 0)
        fork_one();
}

static void *works(void *unused) {
    for (int i = 0; i < rounds; i++)
        do_round(i);
    return unused;
}

int main(int count, char **words) {
    if (count > 1)
        rounds = atoi(words[1]);
    timer_t timer;
    pthread_t other;
    struct itimerspec often = {{0, 50000}, {0, 50000}}, never = {{0, 0}, {0, 0}};
    handle(SIGALRM, on_alarm, SA_RESTART);
    timer_create(CLOCK_MONOTONIC, NULL, &timer);
    timer_settime(timer, 0, &often, NULL);
    pthread_create(&other, NULL, works, NULL);
    works(NULL);
    pthread_join(other, NULL);
    timer_settime(timer, 0, &never, NULL);
    return runs > 100 ? 0 : 1;
}
