#include <pthread.h>
#include <sched.h>
#include <stdio.h>
#include <string.h>

static pthread_mutex_t a = PTHREAD_MUTEX_INITIALIZER;
static pthread_mutex_t b = PTHREAD_MUTEX_INITIALIZER;
static pthread_rwlock_t c = PTHREAD_RWLOCK_INITIALIZER;
static pthread_cond_t condition = PTHREAD_COND_INITIALIZER;
static pthread_mutex_t g = PTHREAD_MUTEX_INITIALIZER;
static int is_set;
static volatile int said;

static pthread_t run(void *(*work)(void *)) {
    pthread_t thread;
    pthread_create(&thread, NULL, work, NULL);
    return thread;
}

static void in_order(pthread_mutex_t *first, pthread_mutex_t *second) {
    pthread_mutex_lock(first);
    pthread_mutex_lock(second);
    pthread_mutex_unlock(second);
    pthread_mutex_unlock(first);
}

static void *takes_a_b(void *unused) {
    in_order(&a, &b);
    return unused;
}

static void *takes_b_a(void *unused) {
    in_order(&b, &a);
    return unused;
}

static void *waits(void *unused) {
    pthread_mutex_lock(&b);
    pthread_mutex_lock(&a);
    said = 1;
    while (!is_set) pthread_cond_wait(&condition, &a);
    pthread_mutex_unlock(&a);
    pthread_mutex_unlock(&b);
    return unused;
}

static void *notifies(void *unused) {
    pthread_mutex_lock(&a);
    is_set = 1;
    pthread_cond_signal(&condition);
    pthread_mutex_unlock(&a);
    return unused;
}

static void await_said(void) {
    while (!said) sched_yield();
}

static void *takes_a_b_and_says(void *unused) {
    in_order(&a, &b);
    said = 1;
    return unused;
}

static void *takes_b_a_then(void *unused) {
    await_said();
    in_order(&b, &a);
    return unused;
}

static void *tries_b_a_then(void *unused) {
    await_said();
    pthread_mutex_lock(&b);
    if (!pthread_mutex_trylock(&a)) pthread_mutex_unlock(&a);
    pthread_mutex_unlock(&b);
    return unused;
}

static void *takes_a_b_in_g(void *unused) {
    pthread_mutex_lock(&g);
    in_order(&a, &b);
    pthread_mutex_unlock(&g);
    return unused;
}

static void *takes_b_a_in_g(void *unused) {
    pthread_mutex_lock(&g);
    in_order(&b, &a);
    pthread_mutex_unlock(&g);
    return unused;
}

static void *takes_a_and_says(void *unused) {
    pthread_mutex_lock(&a);
    pthread_mutex_unlock(&a);
    said = 1;
    return unused;
}

static void *waits_in_g(void *unused) {
    pthread_mutex_lock(&g);
    said = 1;
    while (!is_set) pthread_cond_wait(&condition, &g);
    pthread_mutex_unlock(&g);
    in_order(&b, &a);
    return unused;
}

static void *takes_b(void *unused) {
    pthread_mutex_lock(&b);
    pthread_mutex_unlock(&b);
    return unused;
}

static void abba(void) {
    pthread_join(run(takes_a_b), NULL);
    pthread_join(run(takes_b_a), NULL);
}

static void both(void *(*first)(void *), void *(*second)(void *)) {
    pthread_t one = run(first), other = run(second);
    pthread_join(one, NULL);
    pthread_join(other, NULL);
}

static void crossed(void) { both(takes_a_b_and_says, takes_b_a_then); }
static void tried(void) { both(takes_a_b_and_says, tries_b_a_then); }
static void gate(void) { both(takes_a_b_in_g, takes_b_a_in_g); }

static void held(void) {
    pthread_t thread = run(takes_a_and_says);
    await_said();
    pthread_mutex_lock(&a);
    pthread_join(thread, NULL);
    pthread_mutex_unlock(&a);
}

static void notified(void) {
    pthread_t thread = run(waits_in_g);
    in_order(&a, &b);
    await_said();
    pthread_mutex_lock(&g);
    is_set = 1;
    pthread_cond_signal(&condition);
    pthread_mutex_unlock(&g);
    pthread_join(thread, NULL);
}

static void long_abba(void) {
    for (int at = 0; at < 70000; at++) {
        pthread_mutex_lock(&a);
        pthread_mutex_unlock(&a);
    }
    abba();
}

static void try_second(void) {
    pthread_mutex_lock(&a);
    if (!pthread_mutex_trylock(&b)) pthread_mutex_unlock(&b);
    pthread_mutex_unlock(&a);
}

static void wait_for_condition(void) {
    pthread_t waiting = run(waits);
    await_said();
    pthread_join(run(notifies), NULL);
    pthread_join(waiting, NULL);
}

static void join(void) {
    pthread_mutex_lock(&a);
    pthread_join(run(takes_b), NULL);
    pthread_mutex_unlock(&a);
}

static void reader(void) {
    pthread_mutex_lock(&a);
    pthread_rwlock_rdlock(&c);
    pthread_rwlock_unlock(&c);
    pthread_mutex_unlock(&a);
}

static void fifty(void) {
    static pthread_mutex_t locks[50];
    for (int at = 0; at < 50; at++) pthread_mutex_init(&locks[at], NULL);
    for (int at = 0; at < 50; at++) pthread_mutex_lock(&locks[at]);
    for (int at = 0; at < 50; at++) pthread_mutex_unlock(&locks[at]);
}

int main(int count, char **words) {
    static const struct {
        const char *name;
        void (*run)(void);
    } cases[] = {{"abba", abba}, {"crossed", crossed}, {"tried", tried}, {"gate", gate}, {"held", held}, {"notified", notified}, {"long", long_abba},
                 {"try", try_second}, {"condition", wait_for_condition}, {"join", join}, {"reader", reader}, {"fifty", fifty}};
    for (unsigned at = 0; at < sizeof cases / sizeof *cases; at++) {
        if (count == 2 && !strcmp(words[1], cases[at].name)) cases[at].run();
    }
    return 0;
}
