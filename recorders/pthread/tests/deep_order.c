/* Two threads take `a` and `b` in opposite orders, each with 60 locks of its own held. */
#include "common.h"
#define OWN 60
static pthread_mutex_t a = PTHREAD_MUTEX_INITIALIZER, b = PTHREAD_MUTEX_INITIALIZER, own[2][OWN];

static void *takes(void *is_other) {
    int which = is_other != NULL;
    pthread_mutex_t *first = which ? &b : &a, *second = which ? &a : &b;
    for (int i = 0; i < OWN; i++)
        pthread_mutex_lock(&own[which][i]);
    NEST(first, second);
    for (int i = 0; i < OWN; i++)
        pthread_mutex_unlock(&own[which][i]);
    return NULL;
}

int main(void) {
    in_thread(takes, NULL);
    in_thread(takes, &a);
}
