/* Two mutexes in both orders, one of which is given for the time of a wait for a condition. */
#include "pairs.h"

#include <stdbool.h>

static pthread_mutex_t queue = PTHREAD_MUTEX_INITIALIZER, journal = PTHREAD_MUTEX_INITIALIZER;
static pthread_cond_t filled = PTHREAD_COND_INITIALIZER;
static bool is_filled;

static void first(void) {
    pthread_mutex_lock(&queue);
    while (!is_filled) {
        end_turn(0); /* it goes on in the next one */
        pthread_cond_wait(&filled, &queue);
    }
    pthread_mutex_lock(&journal);
    pthread_mutex_unlock(&journal);
    pthread_mutex_unlock(&queue);
}

static void second(void) {
    pthread_mutex_lock(&journal);
    pthread_mutex_lock(&queue);
    is_filled = true;
    pthread_cond_signal(&filled);
    pthread_mutex_unlock(&queue);
    pthread_mutex_unlock(&journal);
}

int main(void) {
    run_both();
    return 0;
}
