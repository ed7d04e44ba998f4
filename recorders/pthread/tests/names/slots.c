#include <pthread.h>
#include <stdlib.h>
struct timer { pthread_mutex_t m; int ms; };
struct cat { long a; pthread_mutex_t m; };
struct dog { long b; pthread_mutex_t m; };
static void *slots[4];
__attribute__((noinline)) static void take(void *p, int at) {
    pthread_mutex_t *m = (pthread_mutex_t *)((char *)p + at);
    pthread_mutex_lock(m);
    pthread_mutex_unlock(m);
}
__attribute__((noinline)) static void make_both(void) {
    struct cat *c = calloc(1, sizeof *c); struct dog *d = calloc(1, sizeof *d);
    slots[2] = c, slots[3] = d;
}
int main(int argc, char **argv) {
    (void)argv;
    struct timer *t = NULL;
    slots[1] = calloc(1, 48);
    take(slots[1], 0);
    make_both();
    take(slots[2], 8), take(slots[3], 8);
    if (argc > 5) { t = calloc(1, sizeof *t); take(t, 0); }
    return 0;
}
