/* A signal comes when its thread, the main one or a worker, has taken its last lock, but not for the last time one inside the C library, which the
   handler takes as well: goes_on WHAT THREAD [before]. `before`: the thread takes that before the signal, too. `gate`: the handler takes it inside
   the lock. */
#include "common.h"
#include <semaphore.h>
static LOCK(table);
static sem_t may_send;
static volatile sig_atomic_t has_run;
static int is_of_malloc, is_of_printf, is_of_gate, is_before;
static char *volatile piece;
static void use(void) {
    time_t now = 0;
    if (is_of_malloc || is_of_gate) {
        piece = malloc(100);
        free(piece);
    } else if (is_of_printf)
        printf("used\n");
    else
        localtime(&now);
}
static void on_usr1(int number) {
    (void)number;
    if (is_of_gate)
        pthread_mutex_lock(&table);
    use();
    if (is_of_gate)
        pthread_mutex_unlock(&table);
    has_run = 1;
}
static void begin(void) {
    with(&table);
    if (is_before)
        use();
}
static void *works(void *unused) {
    begin();
    sem_post(&may_send);
    while (!has_run)
        usleep(1000);
    use();
    use();
    return unused;
}
static void send_to_worker(void) {
    pthread_t worker;
    sem_init(&may_send, 0, 0);
    pthread_create(&worker, NULL, works, NULL);
    sem_wait(&may_send);
    pthread_kill(worker, SIGUSR1);
    pthread_join(worker, NULL);
}
int main(int count, char **words) {
    is_of_malloc = strcmp(words[1], "malloc") == 0;
    is_of_printf = strcmp(words[1], "printf") == 0;
    is_of_gate = strcmp(words[1], "gate") == 0;
    is_before = count > 3;
    handle(SIGUSR1, on_usr1, 0);
    if (strcmp(words[2], "worker") == 0) {
        send_to_worker();
        return 0;
    }
    begin();
    raise(SIGUSR1);
    use();
    use();
}
