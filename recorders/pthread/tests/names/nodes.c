/* Locks of structures that a header declares: of a tag, of another one, and of a typedef's name. */
#include HEADER
#include <stdlib.h>

static void take(pthread_mutex_t *m) {
    pthread_mutex_lock(m);
    pthread_mutex_unlock(m);
}

void NAME(void) {
    struct node *n = calloc(1, sizeof *n);
    struct same *s = calloc(1, sizeof *s);
    queue *q = calloc(1, sizeof *q);
    take(&n->m);
    take(&s->m);
    take(&q->m);
    free(n);
    free(s);
    free(q);
}
