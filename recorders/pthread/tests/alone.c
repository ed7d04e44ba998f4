/* A thread that takes a mutex that it holds waits for itself. */
#include "common.h"
#include "asleep.h"
static pthread_mutex_t a = PTHREAD_MUTEX_INITIALIZER;
int main(void) {
    pthread_mutex_lock(&a);
    end_when_asleep();
    pthread_mutex_lock(&a);
}
