/* Five philosophers, each of whom takes the fork on the one side and then that on the other. */
#include "turns.h"

#include <pthread.h>

#define SEATS 5

static pthread_mutex_t forks[SEATS];

static void *dine(void *with) {
    long seat = (long)with;
    for (int i = 0; i < ROUNDS; i++) {
        int turn = i * SEATS + (int)seat;
        await_turn(turn, SEATS);
        pthread_mutex_lock(&forks[seat]);
        pthread_mutex_lock(&forks[(seat + 1) % SEATS]);
        pthread_mutex_unlock(&forks[(seat + 1) % SEATS]);
        pthread_mutex_unlock(&forks[seat]);
        end_turn(turn);
    }
    return with;
}

int main(void) {
    pthread_t threads[SEATS];
    for (int i = 0; i < SEATS; i++)
        pthread_mutex_init(&forks[i], NULL);
    for (long i = 0; i < SEATS; i++)
        pthread_create(&threads[i], NULL, dine, (void *)i);
    for (int i = 0; i < SEATS; i++)
        pthread_join(threads[i], NULL);
    return 0;
}
