/* A library that takes all of its locks before a fork, as an allocator does, and gives them back after it. */
#include "common.h"
#include <sys/wait.h>
#include <unistd.h>

#define LOCKS 60
static pthread_mutex_t locks[LOCKS];

static void take_all(void) {
    for (int i = 0; i < LOCKS; i++)
        pthread_mutex_lock(&locks[i]);
}

static void give_all(void) {
    for (int i = LOCKS; i-- > 0;)
        pthread_mutex_unlock(&locks[i]);
}

int main(void) {
    for (int i = 0; i < LOCKS; i++)
        pthread_mutex_init(&locks[i], NULL);
    pthread_atfork(take_all, give_all, give_all);
    if (fork() == 0)
        _exit(0);
    wait(NULL);
}
