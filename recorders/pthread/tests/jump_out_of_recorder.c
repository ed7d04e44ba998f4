/* A timer's handler that jumps out of whatever the thread is in, often out of the recorder itself, and a lock that is made anew then. Later
   two threads take two locks in both orders, which is seen as ever. */
#include "common.h"
#include <setjmp.h>
#include <sys/time.h>
static pthread_mutex_t a = PTHREAD_MUTEX_INITIALIZER, b = PTHREAD_MUTEX_INITIALIZER, lock;
static sigjmp_buf out;
static volatile sig_atomic_t jumps;

static void jump(int number) {
    jumps++;
    siglongjmp(out, number);
}

static APART void take_deeper(int deeper) {
    volatile char room[64] = {0};
    if (deeper)
        take_deeper(deeper - 1);
    for (int i = 0; i < 1000; i++)
        TAKE(&lock);
    room[0] = 1;
}

static APART void jump_often(void) {
    struct itimerval often = {{0, 1000}, {0, 1000}}, never = {{0, 0}, {0, 0}};
    signal(SIGALRM, jump);
    sigsetjmp(out, 1);
    setitimer(ITIMER_REAL, &never, NULL);
    pthread_mutex_init(&lock, NULL);
    setitimer(ITIMER_REAL, &often, NULL);
    while (jumps < 200)
        take_deeper(jumps % 4);
    setitimer(ITIMER_REAL, &never, NULL);
}

int main(void) {
    jump_often();
    nest_pair((pthread_mutex_t *[]){&a, &b});
    in_thread(nest_pair, (pthread_mutex_t *[]){&b, &a});
}
