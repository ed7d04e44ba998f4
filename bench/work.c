/* Programs whose recording bench/all measures: work pieces MEGABYTES | arenas | threads | pairs [both]. */
#include <pthread.h>
#include <stdint.h>
#include <stdlib.h>
#include <string.h>

static void take_pieces(long bytes) {
    for (; bytes > 0; bytes -= 48) /* what malloc takes for 40 */
        *(void *volatile *)malloc(40) = NULL;
}

static pthread_barrier_t all;

static void *take_in_arena(void *unused) {
    take_pieces((10L << 20) / 60);
    pthread_barrier_wait(&all);
    return unused;
}

static void take_pair(pthread_mutex_t *outer, pthread_mutex_t *inner) {
    pthread_mutex_lock(outer);
    pthread_mutex_lock(inner);
    pthread_mutex_unlock(inner);
    pthread_mutex_unlock(outer);
}

/* Of each lock a class. */
#define TEN(name) name(0) name(1) name(2) name(3) name(4) name(5) name(6) name(7) name(8) name(9)
#define LOCKS(n) lock(n, 0) lock(n, 1) lock(n, 2) lock(n, 3) lock(n, 4) lock(n, 5) lock(n, 6) lock(n, 7) lock(n, 8) lock(n, 9)
#define lock(a, b) static pthread_mutex_t lock##a##b = PTHREAD_MUTEX_INITIALIZER;
TEN(LOCKS)
#undef lock
#define lock(a, b) &lock##a##b,
static pthread_mutex_t *const locks[] = {TEN(LOCKS)};
#define LAST (sizeof locks / sizeof *locks - 1)

static void *take_locks(void *unused) {
    for (unsigned i = 0; i < 50; i++)
        take_pair(locks[i], locks[i + 1]);
    pthread_barrier_wait(&all);
    return unused;
}

static void *take_pairs(void *number) {
    uint32_t random = (uint32_t)(uintptr_t)number;
    for (int i = 0; i < 800; i++) {
        random = random * 1103515245 + 12345;
        unsigned outer = (random >> 16) % LAST, inner = outer + 1 + (random >> 8) % (LAST - outer);
        take_pair(locks[outer], locks[inner]);
    }
    return NULL;
}

static void run(unsigned count, void *(*work)(void *)) {
    pthread_t threads[500];
    pthread_barrier_init(&all, NULL, count);
    for (unsigned i = 0; i < count; i++)
        if (pthread_create(&threads[i], NULL, work, (void *)(uintptr_t)i) != 0)
            exit(3);
    for (unsigned i = 0; i < count; i++)
        pthread_join(threads[i], NULL);
}

int main(int argc, char **argv) {
    const char *what = argc > 1 ? argv[1] : "";
    if (strcmp(what, "pieces") == 0 && argc > 2)
        take_pieces(atol(argv[2]) << 20);
    else if (strcmp(what, "arenas") == 0)
        run(60, take_in_arena);
    else if (strcmp(what, "threads") == 0)
        run(500, take_locks);
    else if (strcmp(what, "pairs") == 0)
        run(50, take_pairs);
    else
        return 2;
    if (argc > 2 && strcmp(argv[2], "both") == 0)
        take_pair(locks[1], locks[0]);
    return 0;
}
