/* Threads that take a lock, each after the other: the first one, one that it starts, one that the C library starts for a timer, and the first one of a
   child that the second one has forked. */
#include "common.h"

#include <semaphore.h>

static pthread_mutex_t lock = PTHREAD_MUTEX_INITIALIZER;
static sem_t has_come;

static void *works(void *unused) {
    TAKE(&lock);
    pid_t child = fork();
    if (child == 0) {
        TAKE(&lock);
        _exit(0);
    }
    waitpid(child, NULL, 0);
    return unused;
}

static void on_time(union sigval unused) {
    (void)unused;
    TAKE(&lock);
    sem_post(&has_come);
}

static void await_timer(void) {
    struct sigevent event = {.sigev_notify = SIGEV_THREAD, .sigev_notify_function = on_time};
    struct itimerspec soon = {.it_value = {.tv_nsec = 1000000}};
    timer_t timer;
    sem_init(&has_come, 0, 0);
    if (timer_create(CLOCK_MONOTONIC, &event, &timer) != 0 || timer_settime(timer, 0, &soon, NULL) != 0)
        abort();
    sem_wait(&has_come);
}

int main(void) {
    TAKE(&lock);
    in_thread(works, NULL);
    await_timer();
}
