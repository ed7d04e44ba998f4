/* Programs whose threads wait for one another, until something ends that, each by its name. In the recorded run they don't. */
#include "rows.h"

#include "../asleep.h"
#include <setjmp.h>
#include <signal.h>
#include <stdatomic.h>
#include <sys/time.h>

#define LOOK 50000 /* microseconds */
#define EARLY 12   /* looks at held locks after which a thread releases what another one holds: `provoke` has looked as often by then */
#define LATE 1200  /* which are never over: the run is judged long before */

static atomic_int over; /* threads */

IN_TURN(takes_ab, 0, 2, take(&a, &b); over++)
IN_TURN(takes_ba, 1, 2, take(&b, &a); over++)

/* Whether both locks are held, as they are while the two threads wait for one another. */
static bool are_held(void) { return a.__data.__owner != 0 && b.__data.__owner != 0; }

/* Whether the parent, which is `provoke`, has gone to sleep since this was asked last, as it does after each look at this process. */
static bool has_looked(void) {
    static unsigned long before;
    unsigned long times = 0;
    char parent[16];
    snprintf(parent, sizeof parent, "%d", (int)getppid());
    asleep_till_woken(getppid(), parent, &times);
    bool is_later = times > before;
    before = times;
    return is_later;
}

/* A thread that looks on until both are over; when it has seen both locks held so many times, it does something about it. (Looks from the start on would
   be over too soon on a slow machine, and what comes later then stands still for good.) */
static void look_on(int looks, void (*end)(void)) {
    for (int seen = 0; seen < looks && over < 2; seen += has_looked() && are_held())
        usleep(LOOK);
    if (over < 2)
        end();
}

static void release(void) { pthread_mutex_unlock(&a); }

static void *releases_early(void *with) {
    look_on(EARLY, release);
    return with;
}

static void *releases_late(void *with) {
    look_on(LATE, release);
    return with;
}

static void early(void) { RUN(takes_ab, takes_ba, releases_early); }
static void late(void) { RUN(takes_ab, takes_ba, releases_late); }

/* The file is there from the first time on. */
static void release_once(void) {
    fclose(fopen("released", "w"));
    release();
}

static void *releases_once(void *with) {
    look_on(access("released", F_OK) == 0 ? LATE : EARLY, release_once);
    return with;
}

static void early_once(void) { RUN(takes_ab, takes_ba, releases_once); }

/* Threads hand a mutex over, which shows only when it is over. */
static pthread_mutex_t handed = PTHREAD_MUTEX_INITIALIZER;

static void *takes_what_another_releases(void *with) {
    pthread_mutex_lock(&handed);
    return with;
}

static void hands_over(void) {
    late();
    RUN(takes_what_another_releases);
    pthread_mutex_unlock(&handed);
}

/* ---- A thread that ends the program. */

static void give_up(void) { _exit(7); }

static void *watches(void *with) {
    look_on(EARLY, give_up);
    return with;
}

static void watched(void) { RUN(takes_ab, takes_ba, watches); }

/* Mutexes that only their holders can release. */
static void release_by_holders(void) { a = b = (pthread_mutex_t)PTHREAD_ERRORCHECK_MUTEX_INITIALIZER_NP; }

static void *watches_on(void *with) {
    look_on(LATE, give_up);
    return with;
}

/* No thread can have a handler run in those that wait, so that one that ends the program later is no way out of the wait. */
static void watched_on(void) {
    sigset_t all;
    sigfillset(&all);
    pthread_sigmask(SIG_BLOCK, &all, NULL);
    release_by_holders();
    RUN(takes_ab, takes_ba, watches_on);
}

/* ---- A handler that jumps out of the wait. */

#define SECONDS 600 /* which never pass */

static sigjmp_buf out;
static pthread_t jumping;

static void jump(int number) {
    (void)number;
    siglongjmp(out, 1);
}

static void *jumps_out(void *with) {
    jumping = pthread_self();
    await_turn(1, 2);
    if (sigsetjmp(out, 1) == 0)
        take(&b, &a);
    else
        pthread_mutex_unlock(&b);
    over++;
    end_turn(1);
    return with;
}

static void alarmed(void) {
    signal(SIGALRM, jump);
    alarm(SECONDS);
    RUN(takes_ab, jumps_out);
    alarm(0);
}

static void send(void) { pthread_kill(jumping, SIGUSR1); }

static void *sends(void *with) {
    look_on(LATE, send);
    return with;
}

static void sent_by_thread(void) {
    release_by_holders();
    signal(SIGUSR1, jump);
    RUN(takes_ab, jumps_out, sends);
}

/* ---- A handler that is set only when it is needed. */

static void set_and_send(void) {
    signal(SIGUSR1, jump);
    send();
}

static void *sends_late(void *with) {
    look_on(LATE, set_and_send);
    return with;
}

static void sent_late(void) {
    release_by_holders();
    RUN(takes_ab, jumps_out, sends_late);
}

/* ---- A thread that may be cancelled anywhere. */

static void leave(void *with) {
    (void)with;
    pthread_mutex_unlock(&b);
    over++;
}

static void *ends_anywhere(void *with) {
    jumping = pthread_self();
    pthread_setcanceltype(PTHREAD_CANCEL_ASYNCHRONOUS, NULL);
    pthread_cleanup_push(leave, NULL);
    takes_ba(with);
    pthread_cleanup_pop(0);
    return with;
}

static void cancel(void) { pthread_cancel(jumping); }

static void *cancels(void *with) {
    look_on(LATE, cancel);
    return with;
}

static void cancelled(void) {
    sigset_t all;
    sigfillset(&all);
    pthread_sigmask(SIG_BLOCK, &all, NULL);
    release_by_holders();
    RUN(takes_ab, ends_anywhere, cancels);
}

/* ---- Another process, which sends a signal. */

static void run_beside(int number, routine *second) {
    pid_t other = fork();
    if (other == 0) {
        sleep(SECONDS);
        kill(getppid(), number);
        _exit(0);
    }
    RUN(takes_ab, second);
    kill(other, SIGKILL);
    waitpid(other, NULL, 0);
}

static void sent(void) {
    signal(SIGUSR1, jump);
    run_beside(SIGUSR1, jumps_out);
}

static void killed(void) { run_beside(SIGKILL, takes_ba); }

/* The command beside the run sends it. */
static void served(void) {
    signal(SIGUSR1, jump);
    RUN(takes_ab, jumps_out);
}

/* That command may also end one of two processes, whose mutexes the other one gets then. */
static void robust(void) { run_processes(PTHREAD_MUTEX_ROBUST); }

/* ---- Another process, which wakes a thread. */

static struct bell {
    pthread_mutex_t lock;
    pthread_cond_t rings;
    bool has_rung;
} *bell;

static void ring(void) {
    pthread_mutex_lock(&bell->lock);
    bell->has_rung = true;
    pthread_cond_signal(&bell->rings);
    pthread_mutex_unlock(&bell->lock);
}

static void *releases_when_it_rings(void *with) {
    pthread_mutex_lock(&bell->lock);
    while (!bell->has_rung)
        pthread_cond_wait(&bell->rings, &bell->lock);
    pthread_mutex_unlock(&bell->lock);
    if (over < 2)
        release();
    return with;
}

static void make_bell(void) {
    pthread_mutexattr_t of_lock;
    pthread_condattr_t of_rings;
    bell = mmap(NULL, sizeof *bell, PROT_READ | PROT_WRITE, MAP_SHARED | MAP_ANONYMOUS, -1, 0);
    pthread_mutexattr_init(&of_lock);
    pthread_mutexattr_setpshared(&of_lock, PTHREAD_PROCESS_SHARED);
    pthread_mutex_init(&bell->lock, &of_lock);
    pthread_condattr_init(&of_rings);
    pthread_condattr_setpshared(&of_rings, PTHREAD_PROCESS_SHARED);
    pthread_cond_init(&bell->rings, &of_rings);
}

static void woken(void) {
    pthread_t releasing;
    make_bell();
    pid_t other = fork();
    if (other == 0) {
        sleep(SECONDS);
        ring();
        _exit(0);
    }
    pthread_create(&releasing, NULL, releases_when_it_rings, NULL);
    RUN(takes_ab, takes_ba);
    ring();
    pthread_join(releasing, NULL);
    kill(other, SIGKILL);
    waitpid(other, NULL, 0);
}

/* ---- A timer that runs a function: after many others, or beside them. */

#define CROWD 20 /* more than are watched */

static void release_by_timer(union sigval with) {
    (void)with;
    release();
}

static void make_timer(timer_t *timer) {
    struct sigevent runs = {.sigev_notify = SIGEV_THREAD, .sigev_notify_function = release_by_timer};
    timer_create(CLOCK_MONOTONIC, &runs, timer);
}

static void run_timed(timer_t timer) {
    timer_settime(timer, 0, &(struct itimerspec){.it_value.tv_sec = SECONDS}, NULL);
    RUN(takes_ab, takes_ba);
    timer_delete(timer);
}

static void timed(void) {
    timer_t timer;
    for (int i = 0; i < CROWD; i++) {
        timer_create(CLOCK_MONOTONIC, &(struct sigevent){.sigev_notify = SIGEV_SIGNAL, .sigev_signo = SIGUSR2}, &timer);
        timer_delete(timer);
    }
    make_timer(&timer);
    run_timed(timer);
}

static void timed_in_crowd(void) {
    timer_t timers[CROWD];
    for (int i = 0; i < CROWD; i++)
        make_timer(&timers[i]);
    run_timed(timers[CROWD - 1]);
}

/* ---- A timer by the time in which the process runs, as it does where threads wait for spin locks. */

static pthread_spinlock_t spins[2];

IN_TURN(spins_ab, 0, 2, pthread_spin_lock(&spins[0]); pthread_spin_lock(&spins[1]); pthread_spin_unlock(&spins[1]); pthread_spin_unlock(&spins[0]))
IN_TURN(spins_ba, 1, 2, pthread_spin_lock(&spins[1]); if (sigsetjmp(out, 1) == 0) pthread_spin_lock(&spins[0]), pthread_spin_unlock(&spins[0]);
        pthread_spin_unlock(&spins[1]))

static void worked(void) {
    pthread_spin_init(&spins[0], PTHREAD_PROCESS_PRIVATE);
    pthread_spin_init(&spins[1], PTHREAD_PROCESS_PRIVATE);
    signal(SIGVTALRM, jump);
    setitimer(ITIMER_VIRTUAL, &(struct itimerval){.it_value.tv_sec = SECONDS}, NULL);
    RUN(spins_ab, spins_ba);
}

int main(int count, char **words) {
    static const struct row rows[] = {{"early", early}, {"late", late}, {"early-once", early_once}, {"hands-over", hands_over}, {"watched", watched}, {"watched-on", watched_on},
                                      {"alarmed", alarmed}, {"sent-by-thread", sent_by_thread}, {"sent", sent}, {"killed", killed}, {"timed", timed},
                                      {"timed-in-crowd", timed_in_crowd}, {"worked", worked}, {"sent-late", sent_late}, {"cancelled", cancelled},
                                      {"served", served}, {"robust", robust}, {"woken", woken}};
    return run_row(rows, sizeof rows / sizeof *rows, count > 1 ? words[1] : "");
}
