/* A class is where a lock is initialised: all of a loop are one. A static lock is known by its symbol, one on the heap that
   nobody initialised by where its memory was allocated and where in that it is. A name with a comma or a quote can't come out of C. */
#include "common.h"
static pthread_mutex_t named = PTHREAD_MUTEX_INITIALIZER;
static struct pair {
    int before;
    pthread_mutex_t lock;
} pair = {0, PTHREAD_MUTEX_INITIALIZER};

static APART void take_it(pthread_mutex_t *m) { TAKE(m); }

static APART void init_all(pthread_mutex_t *many, int count) {
    for (int i = 0; i < count; i++)
        pthread_mutex_init(&many[i], NULL);
}

int main(int argc, char **argv) {
    pthread_mutex_t many[3], *bare = calloc(1, sizeof *bare);
    int count = 2 + argc;
    init_all(many, count);
    for (int i = 0; i < count; i++)
        pthread_mutex_lock(&many[i]);
    for (int i = 0; i < count; i++)
        pthread_mutex_unlock(&many[i]);
    take_it(&named);
    take_it(&pair.lock);
    take_it(bare);
    pthread_mutex_destroy(bare);
    free(bare);
    (void)argv;
}
