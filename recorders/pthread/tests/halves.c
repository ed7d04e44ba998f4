/* Locks in pieces of 16 bytes, of which two begin in 32: halves_malloc.c gives them out. Each is known by where it was allocated, also where another one was,
   and if two threads get such two at once, which they do with the word `threads`. */
#include "common.h"
#include <stdint.h>

struct spinning {
    pthread_spinlock_t lock;
    int rest[3];
};

static pthread_mutex_t a = PTHREAD_MUTEX_INITIALIZER, b = PTHREAD_MUTEX_INITIALIZER, c = PTHREAD_MUTEX_INITIALIZER;

#define MAKES(name)                                       \
    static APART struct spinning *name(void) {            \
        struct spinning *made = malloc(sizeof *made);     \
        made->lock = 1; /* as pthread_spin_init leaves it */ \
        return made;                                      \
    }
MAKES(filler)
MAKES(left)
MAKES(right)
MAKES(left_again)
MAKES(right_again)

static void nest(struct spinning *outer, pthread_mutex_t *inner) {
    pthread_spin_lock(&outer->lock);
    TAKE(inner);
    pthread_spin_unlock(&outer->lock);
}

#define EACH 20000
static struct spinning *got[2][EACH];

static void *get(void *mine) {
    for (int i = 0; i < EACH; i++)
        ((struct spinning **)mine)[i] = filler();
    return NULL;
}

static void use_those_of_threads(void) {
    pthread_t threads[2];
    for (int i = 0; i < 2; i++)
        pthread_create(&threads[i], NULL, get, got[i]);
    for (int i = 0; i < 2; i++)
        pthread_join(threads[i], NULL);
    for (int i = 0; i < 2 * EACH; i++)
        nest(got[i % 2][i / 2], &a);
}

int main(int argc, char **argv) {
    struct spinning *l = NULL, *r;
    for (int i = 0; i < 1000 || (uintptr_t)l % 32 == 0; i++)
        l = filler();
    if (argc > 1 && strcmp(argv[1], "threads") == 0) {
        use_those_of_threads();
        return 0;
    }
    l = left();
    r = right();
    if (r != l + 1)
        return 1;
    nest(l, &a);
    nest(r, &a);
    free(l);
    l = left_again();
    nest(l, &b);
    nest(r, &b);
    free(r);
    r = right_again();
    nest(r, &c);
    nest(l, &c);
}
