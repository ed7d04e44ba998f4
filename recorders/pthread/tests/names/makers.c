/* Locks that functions make for their callers: what the word of the call says is done. */
#include <common.h>

void demo_mutex_init(pthread_mutex_t *), demo_pair_lock_init(pthread_mutex_t *, pthread_mutex_t *);
void demo_clock_init(pthread_mutex_t *), init_clock_mutex_init_table(pthread_mutex_t *);
void demo_table_lock_init(pthread_mutex_t *), demo_locks_init(pthread_mutex_t *);
pthread_mutex_t *demo_lock_new(void);

static volatile int calls; /* counted after a call, which then can't become a jump */

#define PASSES_ON(name, next) \
    static APART void name(pthread_mutex_t *made) { \
        next(made); \
        calls++; \
    }

PASSES_ON(node, demo_mutex_init)
PASSES_ON(item, demo_mutex_init)

/* Two kinds of objects, each made in two places: without one of the callers of each, the places are one. */
PASSES_ON(folder, node)
PASSES_ON(entry, item)
PASSES_ON(root, folder)
PASSES_ON(leaf, folder)
PASSES_ON(first, entry)
PASSES_ON(last, entry)

static void makers(void) {
    static pthread_mutex_t of_root, of_leaf, of_first, of_last;
    root(&of_root);
    leaf(&of_leaf);
    first(&of_first);
    last(&of_last);
    pthread_mutex_t *one_way[] = {&of_root, &of_first}, *other_way[] = {&of_last, &of_leaf};
    in_thread(nest_pair, one_way);
    in_thread(nest_pair, other_way);
}

static const char *taken; /* the case */

/* One function makes two locks for one caller, nested in each other, or of which only one is taken. */
static void pair(void) {
    pthread_mutex_t outer, inner;
    demo_pair_lock_init(&outer, &inner);
    if (strcmp(taken, "pair") == 0)
        NEST(&outer, &inner);
    else
        TAKE(strcmp(taken, "pair_outer") == 0 ? &outer : &inner);
}

static void alloc(void) { TAKE(demo_lock_new()); }

static void others(void) {
    pthread_mutex_t made;
    demo_clock_init(&made);
    TAKE(&made);
    init_clock_mutex_init_table(&made);
    TAKE(&made);
    demo_table_lock_init(&made);
    TAKE(&made);
    demo_locks_init(&made);
    TAKE(&made);
}

/* Functions of the program that have such names: one below which there is no other, one that has a caller, and one that takes locks. */
static pthread_mutex_t own, table = PTHREAD_MUTEX_INITIALIZER, row = PTHREAD_MUTEX_INITIALIZER;

static void *own_lock_init(void *unused) {
    pthread_mutex_init(&own, NULL);
    TAKE(&own);
    return unused;
}

static APART void table_lock_init(void) {
    pthread_mutex_init(&own, NULL);
    TAKE(&own);
    NEST(&table, &row);
}

static void *other_way(void *unused) {
    NEST(&row, &table);
    return unused;
}

static void takes(void) {
    table_lock_init();
    in_thread(other_way, NULL);
}

int main(int argc, char **argv) {
    static const struct {
        const char *name;
        void (*does)(void);
    } cases[] = {{"makers", makers}, {"pair", pair}, {"pair_outer", pair}, {"pair_inner", pair}, {"alloc", alloc}, {"others", others}, {"takes", takes}};
    taken = argv[argc - 1];
    for (size_t i = 0; i < sizeof cases / sizeof *cases; i++)
        if (strcmp(cases[i].name, taken) == 0)
            cases[i].does();
    if (strcmp(taken, "own") == 0)
        in_thread(own_lock_init, NULL);
    return 0;
}
