/* A release of a lock that this thread didn't take isn't written. */
#include "common.h"
static pthread_mutex_t a = PTHREAD_MUTEX_INITIALIZER, b = PTHREAD_MUTEX_INITIALIZER;
int main(void) {
    pthread_mutex_lock(&a);
    pthread_mutex_unlock(&b);
    pthread_mutex_unlock(&a);
}
