/* Operations that bring nothing new leave what was new of them: a million one inside the other, and as many hand over hand,
   where each lock is taken under the one before and outlives it. */
#include "common.h"
static pthread_mutex_t a = PTHREAD_MUTEX_INITIALIZER, b = PTHREAD_MUTEX_INITIALIZER, c = PTHREAD_MUTEX_INITIALIZER;
int main(void) {
    for (int i = 0; i < 250000; i++) {
        pthread_mutex_lock(&a);
        TAKE(&b);
        if (i == 125000)
            TAKE(&c);
        pthread_mutex_unlock(&a);
    }
    pthread_mutex_lock(&a);
    for (int i = 0; i < 250000; i++) {
        pthread_mutex_lock(&b);
        pthread_mutex_lock(&c);
        pthread_mutex_unlock(&b);
        pthread_mutex_unlock(&c);
    }
    pthread_mutex_unlock(&a);
}
