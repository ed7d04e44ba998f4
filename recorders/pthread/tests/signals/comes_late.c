/* A thread gets a signal when it has taken its last lock, which the handler takes as well; `again`: it takes that once more afterwards. `interrupts`:
   the handler may interrupt itself. */
#include "common.h"
#include <semaphore.h>
static LOCK(table);
static sem_t done;
static volatile sig_atomic_t has_run;
static int is_again;
static void on_usr1(int number) {
    (void)number;
    with(&table);
    has_run = 1;
}
static void *works(void *unused) {
    with(&table);
    sem_post(&done);
    while (!has_run)
        usleep(1000);
    if (is_again)
        with(&table);
    return unused;
}
int main(int count, char **words) {
    pthread_t thread;
    is_again = count > 1 && strcmp(words[1], "again") == 0;
    handle(SIGUSR1, on_usr1, count > 1 && !is_again ? SA_NODEFER : 0);
    sem_init(&done, 0, 0);
    pthread_create(&thread, NULL, works, NULL);
    sem_wait(&done);
    pthread_kill(thread, SIGUSR1);
    pthread_join(thread, NULL);
    with(&table);
}
