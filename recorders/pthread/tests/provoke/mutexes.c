/* Two threads that take two mutexes in both orders, in turn. With `child` a child of a fork does so, and with `leave` the first thread ends
   before the two. */
#include "turns.h"

#include <pthread.h>
#include <stdbool.h>
#include <stdio.h>
#include <string.h>
#include <sys/wait.h>

static pthread_mutex_t accounts = PTHREAD_MUTEX_INITIALIZER, journal = PTHREAD_MUTEX_INITIALIZER;
static long balance;

static void *pay(void *with) {
    for (int i = 0; i < ROUNDS; i++) {
        await_turn(2 * i, 2);
        pthread_mutex_lock(&accounts);
        pthread_mutex_lock(&journal);
        balance++;
        pthread_mutex_unlock(&journal);
        pthread_mutex_unlock(&accounts);
        end_turn(2 * i);
    }
    return with;
}

static void *audit(void *with) {
    for (int i = 0; i < ROUNDS; i++) {
        await_turn(2 * i + 1, 2);
        pthread_mutex_lock(&journal);
        pthread_mutex_lock(&accounts);
        balance--;
        pthread_mutex_unlock(&accounts);
        pthread_mutex_unlock(&journal);
        end_turn(2 * i + 1);
    }
    return with;
}

static void run_both(bool leaves) {
    pthread_t payer, auditor;
    pthread_create(&payer, NULL, pay, NULL);
    pthread_create(&auditor, NULL, audit, NULL);
    if (leaves)
        pthread_exit(NULL);
    pthread_join(payer, NULL);
    pthread_join(auditor, NULL);
}

int main(int count, char **words) {
    bool leaves = count > 1 && strcmp(words[1], "leave") == 0;
    if (count == 1 || leaves) {
        run_both(leaves);
    } else if (fork() == 0) {
        run_both(false);
        _exit(0);
    } else {
        wait(NULL);
    }
    printf("balance %ld\n", balance);
    return 0;
}
