/* Two threads that take two locks in one order: nothing is found. */
#include "common.h"
static pthread_mutex_t a = PTHREAD_MUTEX_INITIALIZER, b = PTHREAD_MUTEX_INITIALIZER;

THREAD(takes_both, NEST(&a, &b))

int main(void) {
    in_thread(takes_both, NULL);
    in_thread(takes_both, NULL);
}
