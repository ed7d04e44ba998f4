/* Nothing is lost of a process that is killed in what it did a hundred times before, and there with another lock of its own. */
#include "common.h"
static pthread_mutex_t a = PTHREAD_MUTEX_INITIALIZER, b = PTHREAD_MUTEX_INITIALIZER, c = PTHREAD_MUTEX_INITIALIZER;
int main(void) {
    for (int i = 0; i < 100; i++) {
        pthread_mutex_lock(&a);
        TAKE(&b);
        if (i >= 98)
            TAKE(&b);
        if (i == 99)
            pthread_mutex_lock(&c);
        if (i < 99)
            pthread_mutex_unlock(&a);
    }
    pthread_mutex_unlock(&c);
    pthread_mutex_lock(&b);
    raise(SIGKILL);
}
