/* Turns of threads. In a run that is recorded each thread waits until the one before it has had its turn, so that the run ends, however busy the
   machine is. In the runs of `provoke`, which hold threads back, turns come by the time alone. */
#ifndef TURNS_H
#define TURNS_H
#include <stdlib.h>
#include <unistd.h>

#define ROUNDS 3           /* turns of each thread */
#define MICROSECONDS 40000 /* from a turn to the next one, by the time */

static int turns; /* so many are over */

/* Waits for a turn, numbered from 0 on, of a thread that has one of each `threads` turns. */
static void await_turn(int number, int threads) {
    if (getenv("LOCKDEP_PROVOKE_PLAN")) {
        usleep((number < threads ? number : threads) * MICROSECONDS);
        return;
    }
    while (__atomic_load_n(&turns, __ATOMIC_ACQUIRE) < number)
        usleep(1000);
}

/* Ends a turn, with those before it: who ends a turn may come before the thread whose turn was the one before has said that it is over. */
static void end_turn(int number) {
    int over = __atomic_load_n(&turns, __ATOMIC_ACQUIRE);
    while (over <= number && !__atomic_compare_exchange_n(&turns, &over, number + 1, 0, __ATOMIC_ACQ_REL, __ATOMIC_ACQUIRE))
        ;
}

#endif
