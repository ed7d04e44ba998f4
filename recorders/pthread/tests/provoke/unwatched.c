/* Handlers that take a spin lock, and run a routine once, each of which the program does too; `allocates`: one that allocates. */
#include <pthread.h>
#include <signal.h>
#include <stdlib.h>
#include <unistd.h>

static pthread_spinlock_t spins;
static pthread_once_t once = PTHREAD_ONCE_INIT;

static void takes_spin_lock(int number) {
    (void)number;
    pthread_spin_lock(&spins);
    pthread_spin_unlock(&spins);
}

static void begin(void) { usleep(1000); }

static void runs_once(int number) {
    (void)number;
    pthread_once(&once, begin);
}

static void allocates(int number) {
    (void)number;
    void *volatile piece = malloc(5000);
    free(piece);
}

int main(int count, char **words) {
    (void)words;
    pthread_spin_init(&spins, 0);
    if (count > 1)
        signal(SIGUSR1, allocates);
    else {
        signal(SIGUSR1, takes_spin_lock);
        signal(SIGUSR2, runs_once);
        takes_spin_lock(0);
        runs_once(0);
        kill(getpid(), SIGUSR2);
    }
    allocates(0);
    kill(getpid(), SIGUSR1);
}
