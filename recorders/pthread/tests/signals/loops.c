/* A hundred thousand times the same, with locks and masks in each order: that is recorded once, however the states follow each other. The handler
   runs once, at the end. */
#include "common.h"
#include <poll.h>
static LOCK(table); static LOCK(inner); static LOCK(long_held);
static void on_usr1(int s) { (void)s; pthread_mutex_lock(&table); pthread_mutex_unlock(&table); }
static void within(void) { block(SIGUSR1); with(&table); unblock(SIGUSR1); }
static void across_the_end(void) { pthread_mutex_lock(&inner); block(SIGUSR1); pthread_mutex_unlock(&inner); unblock(SIGUSR1); }
static void across_the_beginning(void) { block(SIGUSR1); pthread_mutex_lock(&inner); unblock(SIGUSR1); pthread_mutex_unlock(&inner); }
static void inside(void) { pthread_mutex_lock(&inner); within(); pthread_mutex_unlock(&inner); }
static void waiting(void) {
    struct timespec now = {0, 0}; sigset_t none; sigemptyset(&none);
    block(SIGUSR1); pthread_mutex_lock(&inner); ppoll(NULL, 0, &now, &none); with(&table); pthread_mutex_unlock(&inner); unblock(SIGUSR1);
}
static void (*const works[])(void) = {within, across_the_end, across_the_beginning, inside, waiting};
static void *all(void *held) {
    if (held) pthread_mutex_lock(held);
    for (int k = 0; k < 5; k++)
        for (int i = 0; i < 100000; i++) works[k]();
    for (int i = 0; i < 100000; i++) works[i % 5]();
    if (held) pthread_mutex_unlock(held);
    return NULL;
}
int main(void) {
    handle(SIGUSR1, on_usr1, 0);
    all(NULL); all(&long_held);
    kill(getpid(), SIGUSR1);
}
