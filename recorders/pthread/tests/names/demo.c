/* A library that makes locks for its callers. */
#include <common.h>

static volatile int calls; /* counted after a call, which then can't become a jump */

/* A copy of a function has a name that the compiler makes. */
static APART void copied(pthread_mutex_t *made) __asm__("demo_mutex_init_recursive.constprop.0");
static void copied(pthread_mutex_t *made) {
    pthread_mutex_init(made, NULL);
    calls++;
}

void demo_mutex_init(pthread_mutex_t *made) {
    copied(made);
    calls++;
}

pthread_mutex_t *demo_lock_new(void) {
    pthread_mutex_t *made = malloc(sizeof *made);
    demo_mutex_init(made);
    return made;
}

/* Makes two locks, each by a call of its own. */
void demo_pair_lock_init(pthread_mutex_t *first, pthread_mutex_t *second) {
    pthread_mutex_init(first, NULL);
    pthread_mutex_init(second, NULL);
    calls++;
}

/* Their names only resemble those of functions that make a lock for their caller. */
void demo_clock_init(pthread_mutex_t *made) {
    pthread_mutex_init(made, NULL);
    calls++;
}

void init_clock_mutex_init_table(pthread_mutex_t *made) {
    pthread_mutex_init(made, NULL);
    calls++;
}

/* Its code is long, so it does more. */
void demo_table_lock_init(pthread_mutex_t *made) {
    pthread_mutex_init(made, NULL);
    __asm__ volatile(".rept 2000\n\tnop\n\t.endr");
}

void demo_locks_init(pthread_mutex_t *made) {
    pthread_mutex_init(made, NULL);
    calls++;
}
