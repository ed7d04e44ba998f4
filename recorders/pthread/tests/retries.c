/* A lock that is tried again and again with another held: that is one side of an order that no trace can tell, and it is counted. */
#include "common.h"
static pthread_mutex_t a = PTHREAD_MUTEX_INITIALIZER, b = PTHREAD_MUTEX_INITIALIZER;

static void *tries(void *unused) {
    pthread_mutex_lock(&a);
    for (int i = 0; i < 10; i++)
        if (pthread_mutex_trylock(&b) == 0)
            abort();
    pthread_mutex_unlock(&a);
    return unused;
}

int main(void) {
    pthread_mutex_lock(&b);
    in_thread(tries, NULL);
    pthread_mutex_unlock(&b);
}
