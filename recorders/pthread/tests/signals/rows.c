/* What handlers do with locks: small programs, each a row that runs alone. A row is WRONG, with what has to be found and nothing else, or RIGHT. */
#include "rows.h"
#include <fcntl.h>
#include <sched.h>
#include <stdatomic.h>
#include <stdbool.h>
#include <sys/mman.h>
#include <sys/select.h>
#include <sys/syscall.h>
#include <sys/time.h>
#include <ucontext.h>

static LOCK(table); static LOCK(other); static LOCK(safe); static LOCK(turn); static LOCK(stats); static LOCK(pool); static LOCK(timers);
static LOCK(users); static LOCK(of_child); static LOCK(outer); static LOCK(pages); static LOCK(none_of_handlers);
static pthread_t thread;
static pthread_barrier_t both;
static volatile sig_atomic_t runs;

/* Handlers. */
#define TAKES(handler, lock) static void handler(int number) { (void)number; with(&lock); }
TAKES(takes_table, table) TAKES(takes_table_too, table) TAKES(takes_other, other) TAKES(takes_safe, safe) TAKES(takes_stats, stats)
TAKES(takes_timers, timers) TAKES(takes_users, users)
static void takes_and_counts(int number) { (void)number; with(&table); runs++; }
static void counts(int number) { (void)number; runs++; }
static void joins(int number) { (void)number; pthread_join(thread, NULL); }

/* Threads. */
static void *takes(void *unused) { with(&table); return unused; }
static void *takes_blocked(void *unused) { block(SIGUSR1); with(&table); return unused; }
static void *awaits_run(void *unused) { while (!runs) usleep(1000); return unused; }

/* ---- One handler, and main. */

/* The handler takes the lock that main takes with the signal unblocked. */
WRONG(direct, "double table SIGUSR1") { handle(SIGUSR1, takes_table, 0); with(&table); send(SIGUSR1); }
/* The signal is blocked round the lock that its handler takes. */
RIGHT(blocked) { handle(SIGUSR1, takes_table, 0); with_blocked(SIGUSR1, &table); send(SIGUSR1); }
/* The signal is unblocked before the lock is released. */
WRONG(unblocks_early, "double table SIGUSR1") {
    handle(SIGUSR1, takes_table, 0);
    block(SIGUSR1); pthread_mutex_lock(&table); unblock(SIGUSR1); pthread_mutex_unlock(&table);
    send(SIGUSR1);
}
/* The lock is taken with the signal unblocked only before there is a handler, and after it is gone. */
RIGHT(before_handler) { with(&table); free(malloc(10)); handle(SIGUSR1, takes_table, 0); send(SIGUSR1); signal(SIGUSR1, SIG_IGN); with(&table); }
/* The handler runs once and is gone then (SA_RESETHAND); the lock is taken with the signal unblocked before and afterwards. */
RIGHT(once_only) {
    with(&table);
    block(SIGUSR1); handle(SIGUSR1, takes_table, SA_RESETHAND); with(&table); send(SIGUSR1); unblock(SIGUSR1);
    with(&table);
}
/* The lock is taken with the signal unblocked only while another handler is installed, which takes none. */
RIGHT(replaced) {
    signal(SIGUSR1, counts); with(&table);
    struct sigaction old, new = {.sa_handler = takes_table}; sigemptyset(&new.sa_mask);
    sigaction(SIGUSR1, &new, &old); send(SIGUSR1);
    sigaction(SIGUSR1, &old, NULL); with(&table); send(SIGUSR1);
}
/* The handler only sets a flag. */
RIGHT(flag) { handle(SIGTERM, counts, 0); with(&table); send(SIGTERM); if (runs) { with(&table); puts("stopped"); } }
/* A handler that only sets a flag comes in while locks are held, and another handler takes a lock that is always blocked. */
RIGHT(stop_flag_in_middle) {
    handle(SIGALRM, counts, SA_RESTART); handle(SIGUSR1, takes_other, 0);
    pthread_mutex_lock(&table); send(SIGALRM); pthread_mutex_unlock(&table);
    block(SIGUSR1); pthread_mutex_lock(&other); send(SIGALRM); pthread_mutex_unlock(&other); unblock(SIGUSR1);
    send(SIGUSR1);
}
/* The handler tries for the lock, and goes on without it. */
static void tries_table(int number) { (void)number; if (pthread_mutex_trylock(&table) == 0) pthread_mutex_unlock(&table); }
RIGHT(trylock) { handle(SIGUSR1, tries_table, 0); with(&table); send(SIGUSR1); }
/* A recursive mutex may be taken again by the interrupted thread, but glibc takes it first and notes its owner afterwards: a handler that comes in
   between hangs. (It may also see half of a change.) */
static pthread_mutex_t again = PTHREAD_RECURSIVE_MUTEX_INITIALIZER_NP;
TAKES(takes_again, again)
WRONG(recursive, "double again SIGUSR1") {
    handle(SIGUSR1, takes_again, 0); with(&again); pthread_mutex_lock(&again); send(SIGUSR1); pthread_mutex_unlock(&again);
}
/* The lock is taken with the signal blocked, but in the handler, which unblocks it. */
static void takes_unblocked(int number) { unblock(number); with(&table); }
WRONG(unblocks_itself, "double table SIGUSR1") { handle(SIGUSR1, takes_unblocked, 0); with_blocked(SIGUSR1, &table); send(SIGUSR1); }
/* The lock is taken with the signal blocked, but a handler that may come in there unblocks it. */
static void unblocks_usr1(int number) { (void)number; unblock(SIGUSR1); }
WRONG(unblocks_another, "double table SIGUSR1") {
    handle(SIGUSR1, takes_table, 0); handle(SIGUSR2, unblocks_usr1, 0); block(SIGUSR1);
    with(&table); send(SIGUSR2); send(SIGUSR1); unblock(SIGUSR1);
}
/* That handler is blocked, too, where the lock is taken; or it only puts back the mask that it has met. */
RIGHT(unblocks_elsewhere) {
    handle(SIGUSR1, takes_table, 0); handle(SIGUSR2, unblocks_usr1, 0); block(SIGUSR1); block(SIGUSR2);
    with(&table); send(SIGUSR2); send(SIGUSR1); unblock(SIGUSR2); unblock(SIGUSR1);
}
static void puts_back(int number) {
    sigset_t before, one = nothing();
    (void)number; sigaddset(&one, SIGUSR1);
    pthread_sigmask(SIG_BLOCK, &one, &before); pthread_sigmask(SIG_SETMASK, &before, NULL);
}
RIGHT(puts_mask_back) {
    handle(SIGUSR1, takes_table, 0); handle(SIGUSR2, puts_back, 0); send(SIGUSR2);
    block(SIGUSR1); with(&table); send(SIGUSR2); unblock(SIGUSR1); send(SIGUSR1);
}
/* Only the handler takes the lock, but it has SA_NODEFER: the next signal comes in while it holds it. */
WRONG(nodefer, "double table SIGUSR1") { handle(SIGUSR1, takes_table, SA_NODEFER); send(SIGUSR1); }
/* The handler takes the lock and returns with it; main releases it, and takes it with the signal unblocked. */
static void keeps_turn(int number) { (void)number; pthread_mutex_lock(&turn); }
WRONG(held_by_handler, "double turn SIGUSR1") { handle(SIGUSR1, keeps_turn, 0); with(&turn); send(SIGUSR1); pthread_mutex_unlock(&turn); }
/* The handler takes stats. Nobody takes stats with the signal unblocked, but a thread takes pool while it holds stats, and main takes pool with
   the signal unblocked. */
static void *takes_both(void *unused) { block(SIGUSR1); pthread_mutex_lock(&stats); with(&pool); pthread_mutex_unlock(&stats); return unused; }
WRONG(inversion, "inversion stats pool SIGUSR1") { handle(SIGUSR1, takes_stats, 0); in_thread(takes_both); with(&pool); send(SIGUSR1); }
/* sigset and sighold, as System V has them. */
RIGHT(system_v) {
    sigset(SIGUSR1, SIG_HOLD); with(&table); sigset(SIGUSR1, takes_table);
    send(SIGUSR1);
    sighold(SIGUSR1); with(&table); sigrelse(SIGUSR1);
    sigset(SIGUSR1, SIG_HOLD); with(&table); sigignore(SIGUSR1); sigrelse(SIGUSR1); with(&table);
}
/* main faults with a lock held, and the handler takes another one there, as a call would. Nothing comes in from outside. */
static char *page;
static void opens_page(int number) { (void)number; with(&pages); mprotect(page, 4096, PROT_READ | PROT_WRITE); }
RIGHT(fault) {
    page = mmap(NULL, 4096, PROT_NONE, MAP_PRIVATE | MAP_ANONYMOUS, -1, 0);
    handle(SIGSEGV, opens_page, 0);
    with(&pages); pthread_mutex_lock(&outer); *(volatile char *)page = 1; pthread_mutex_unlock(&outer);
}

/* ---- A mask that something else changes. */

/* The lock is taken with the signal blocked, and a jump brings back the mask of before, with the lock held. */
static sigjmp_buf before;
WRONG(jumps_to_unblocked, "double table SIGUSR1") {
    handle(SIGUSR1, takes_table, 0);
    if (sigsetjmp(before, 1) == 0) { block(SIGUSR1); pthread_mutex_lock(&table); siglongjmp(before, 1); }
    pthread_mutex_unlock(&table);
    send(SIGUSR1);
}
/* The handler takes the lock and jumps back to where the signal is blocked whenever the lock is taken. */
static void takes_and_jumps(int number) { (void)number; with(&table); siglongjmp(before, 1); }
RIGHT(jumps_back) {
    static volatile int times;
    handle(SIGUSR1, takes_and_jumps, 0); block(SIGUSR1);
    sigsetjmp(before, 1);
    with(&table);
    if (times++ < 3) { unblock(SIGUSR1); send(SIGUSR1); }
}
/* The lock is taken with SIGUSR1 blocked, and a handler of another signal changes the mask that it returns to. */
static void unblocks_it(int number, siginfo_t *told, void *of) { (void)number, (void)told; sigdelset(&((ucontext_t *)of)->uc_sigmask, SIGUSR1); }
WRONG(unblocks_in_context, "double table SIGUSR1") {
    struct sigaction action = {.sa_sigaction = unblocks_it, .sa_flags = SA_SIGINFO}; sigemptyset(&action.sa_mask); sigaction(SIGUSR2, &action, NULL);
    handle(SIGUSR1, takes_table, 0); block(SIGUSR1);
    pthread_mutex_lock(&table); raise(SIGUSR2); pthread_mutex_unlock(&table);
    send(SIGUSR1);
}
/* A thread ends in the handler, which has taken and given back the lock; others take it with the signal blocked. */
static void takes_and_ends(int number) { (void)number; with(&table); pthread_exit(NULL); }
static void *pauses(void *unused) { unblock(SIGUSR1); pause(); return unused; }
RIGHT(ends_in_handler) {
    handle(SIGUSR1, takes_and_ends, 0); block(SIGUSR1);
    for (int i = 0; i < 2; i++) {
        pthread_create(&thread, NULL, pauses, NULL); with(&table); pthread_kill(thread, SIGUSR1); pthread_join(thread, NULL);
    }
    with(&table);
}

/* ---- Who waits for the signal. */

/* The signal is blocked all the time but in sigsuspend, which is called with the lock held. */
WRONG(suspends_with_lock, "double table SIGUSR1") {
    sigset_t none = nothing();
    block(SIGUSR1); block(SIGUSR2); handle(SIGUSR1, takes_table, 0); handle(SIGUSR2, counts, 0);
    pthread_mutex_lock(&table); send(SIGUSR2); sigsuspend(&none); pthread_mutex_unlock(&table);
    send(SIGUSR1); sigsuspend(&none);
}
/* All is done with the signal blocked, but pselect, which unblocks it, is called with the lock held. */
WRONG(waits_with_lock, "double table SIGCHLD") {
    sigset_t none = nothing();
    handle(SIGCHLD, takes_table, 0);
    block(SIGCHLD);
    struct timespec soon = {0, 1000000};
    pthread_mutex_lock(&table); pselect(0, NULL, NULL, NULL, &soon, &none); pthread_mutex_unlock(&table);
    send(SIGCHLD);
    pselect(0, NULL, NULL, NULL, &soon, &none);
}
/* The handler locks, allocates and prints, but the signal is unblocked in ppoll alone, where nothing is held. */
static void takes_and_prints(int number) { (void)number; with(&table); char *text = strdup("reaped"); puts(text); free(text); }
RIGHT(ppoll_window) {
    sigset_t none = nothing();
    block(SIGCHLD); handle(SIGCHLD, takes_and_prints, 0);
    with(&table); free(malloc(10)); puts("begins");
    send(SIGCHLD);
    struct timespec soon = {1, 0};
    ppoll(NULL, 0, &soon, &none);
    with(&table); free(malloc(10));
}
/* The handler writes to a pipe; the lock is taken by who reads it. */
static int ends[2];
static void writes_byte(int number) { int saved = errno; (void)number; if (write(ends[1], "c", 1) != 1) abort(); errno = saved; }
RIGHT(self_pipe) {
    char c;
    if (pipe(ends)) abort();
    handle(SIGCHLD, writes_byte, SA_RESTART);
    with(&table); send(SIGCHLD);
    if (read(ends[0], &c, 1) == 1) with(&table);
}
/* The signal is read from a descriptor, and no handler runs; what reads it takes the lock. */
RIGHT(signalfd) {
    sigset_t set = only(SIGUSR1);
    block(SIGUSR1);
    int fd = signalfd(-1, &set, 0);
    struct signalfd_siginfo info;
    with(&table); send(SIGUSR1);
    if (read(fd, &info, sizeof info) == sizeof info) { with(&table); free(malloc(10)); }
}
/* A thread waits for the signal by sigwait, and takes the lock; all threads have it blocked, and no handler runs. */
static void *waits_for_signal(void *unused) {
    sigset_t set = only(SIGUSR1); int got;
    sigwait(&set, &got); with(&table); free(malloc(10));
    return unused;
}
RIGHT(sigwait) { handle(SIGUSR1, takes_table, 0); block(SIGUSR1); with(&table); send(SIGUSR1); in_thread(waits_for_signal); }

/* ---- Several handlers. */

/* Two handlers with a lock each; main blocks the one signal round both locks, and the other round one. So SIGALRM is a fault with timers, and
   SIGUSR1 is none with users. */
WRONG(wrong_signal, "double timers SIGALRM") {
    handle(SIGALRM, takes_timers, 0); handle(SIGUSR1, takes_users, 0);
    block(SIGUSR1); with(&users); with(&timers); unblock(SIGUSR1);
    send(SIGALRM); send(SIGUSR1);
}
/* Two handlers share a lock, and either may interrupt the other. */
WRONG(two_handlers, "double table SIGUSR1; double table SIGUSR2") {
    handle(SIGUSR1, takes_table, 0); handle(SIGUSR2, takes_table_too, 0);
    send(SIGUSR1); send(SIGUSR2);
}
/* Two handlers share a lock, and one of them has the other's signal blocked, but not the other way round. */
WRONG(one_masks_the_other, "double table SIGUSR1") {
    struct sigaction action = {.sa_handler = takes_table}; sigemptyset(&action.sa_mask); sigaddset(&action.sa_mask, SIGUSR2);
    sigaction(SIGUSR1, &action, NULL); handle(SIGUSR2, takes_table_too, 0);
    send(SIGUSR1); send(SIGUSR2);
}
/* There is one thread. Each handler takes a lock of its own and may be interrupted by the other, but never by its own signal: where one of them waits
   for its lock, no run of it is below that holds the lock, and there is nobody else. */
RIGHT(one_thread) { handle(SIGUSR1, takes_table, 0); handle(SIGUSR2, takes_safe, 0); send(SIGUSR1); send(SIGUSR2); }
/* As one_thread, but main sends the signals to itself, and takes the same locks, with both signals blocked. */
RIGHT(one_thread_raises) {
    handle(SIGUSR1, takes_table, 0); handle(SIGUSR2, takes_safe, 0);
    raise(SIGUSR1); raise(SIGUSR2);
    block(SIGUSR1); block(SIGUSR2);
    with(&table); with(&safe);
    unblock(SIGUSR1); unblock(SIGUSR2);
    with(&none_of_handlers);
}
/* Both come in at once: the handler of SIGUSR2 runs where that of SIGUSR1 is about to begin, with SIGUSR1 blocked. */
WRONG(both_pending, "double table SIGUSR2") {
    sigset_t two = only(SIGUSR1), none; sigaddset(&two, SIGUSR2); sigemptyset(&none);
    handle(SIGUSR1, takes_table, 0); handle(SIGUSR2, takes_table_too, 0);
    for (int i = 0; i < 100; i++) {
        pthread_sigmask(SIG_BLOCK, &two, NULL); send(SIGUSR1); send(SIGUSR2);
        if (i % 2) sigsuspend(&none);
        pthread_sigmask(SIG_UNBLOCK, &two, NULL);
    }
}
/* As both_pending, but the thread starts so, and what is blocked in it isn't known yet. */
WRONG(both_pending_at_start, "double table SIGUSR1") {
    sigset_t none = nothing();
    pthread_attr_t attributes;
    handle(SIGUSR1, takes_table, 0); handle(SIGUSR2, counts, 0);
    block(SIGUSR1); block(SIGUSR2); send(SIGUSR1); send(SIGUSR2);
    pthread_attr_init(&attributes); pthread_attr_setsigmask_np(&attributes, &none);
    pthread_create(&thread, &attributes, takes, NULL); pthread_join(thread, NULL);
}
/* Ten handlers interrupt one another, and the last one takes the lock. */
#define HANDLERS 10
static void raises_next(int number) { if (number < SIGRTMIN + HANDLERS - 1) raise(number + 1); else with(&table); }
WRONG(many_at_once, "double table SIGRTMIN+9") {
    for (int i = 0; i < HANDLERS; i++) handle(SIGRTMIN + i, raises_next, 0);
    send(SIGRTMIN);
    with(&table);
}

/* ---- Which thread a signal comes to. */

/* main blocks the signal round the lock. Its worker doesn't, and a signal to the process may come to it. */
WRONG(one_thread_forgets, "double table SIGUSR1") { handle(SIGUSR1, takes_table, 0); in_thread(takes); with_blocked(SIGUSR1, &table); send(SIGUSR1); }
/* The handler's lock is taken by a worker that has the signal blocked. Main has it unblocked, and takes the lock in the handler alone: it waits for
   the worker, and the worker goes on. */
RIGHT(one_thread_gets_it) { handle(SIGUSR1, takes_table, 0); in_thread(takes_blocked); send(SIGUSR1); }
/* The signal is only ever sent to the worker, by pthread_kill, and the worker takes the lock in the handler alone. Main, which isn't sent it, takes
   the lock with the signal unblocked. */
RIGHT(sent_to_one) {
    handle(SIGUSR1, takes_and_counts, 0);
    pthread_create(&thread, NULL, awaits_run, NULL);
    with(&table);
    pthread_kill(thread, SIGUSR1); pthread_join(thread, NULL);
}
/* As sent_to_one, by pthread_sigqueue. */
RIGHT(queued_to_one) {
    handle(SIGUSR1, takes_and_counts, 0);
    pthread_create(&thread, NULL, awaits_run, NULL);
    with(&table);
    pthread_sigqueue(thread, SIGUSR1, (union sigval){0}); pthread_join(thread, NULL);
}
/* As queued_to_one, but the signal is sent to the process as well, by sigqueue. */
WRONG(queued_to_both, "double table SIGUSR1") { run_queued_to_one(); sigqueue(getpid(), SIGUSR1, (union sigval){0}); }
/* A timer sends the signal to the worker alone (SIGEV_THREAD_ID), which takes the lock in the handler alone; main takes it unblocked. */
static void *sets_timer(void *unused) {
    timer_t timer; struct itimerspec soon = {{0, 0}, {0, 1000000}};
    struct sigevent event = {.sigev_notify = SIGEV_THREAD_ID, .sigev_signo = SIGUSR1};
    event._sigev_un._tid = (int)syscall(SYS_gettid);
    timer_create(CLOCK_MONOTONIC, &event, &timer); timer_settime(timer, 0, &soon, NULL);
    return awaits_run(unused);
}
RIGHT(timer_of_thread) { handle(SIGUSR1, takes_and_counts, 0); with(&table); in_thread(sets_timer); with(&table); }
/* A pipe sends its signal to the worker alone (F_OWNER_TID), which takes the lock in the handler alone; main takes it with the signal unblocked. */
static void *owns_pipe(void *unused) {
    struct f_owner_ex owner = {F_OWNER_TID, (int)syscall(SYS_gettid)};
    fcntl(ends[0], F_SETOWN_EX, &owner); fcntl(ends[0], F_SETSIG, SIGUSR1); fcntl(ends[0], F_SETFL, O_ASYNC);
    if (write(ends[1], "", 1) != 1) abort();
    return awaits_run(unused);
}
RIGHT(owned_by_one) { if (pipe(ends)) abort(); handle(SIGUSR1, takes_and_counts, 0); with(&table); in_thread(owns_pipe); with(&table); }
/* A pipe sends its signal to the process (F_SETOWN), and main takes the lock with the signal unblocked. */
static void *gives_pipe_away(void *unused) {
    fcntl(ends[0], F_SETOWN, getpid()); fcntl(ends[0], F_SETFL, O_ASYNC);
    if (write(ends[1], "", 1) != 1) abort();
    return awaits_run(unused);
}
WRONG(owned_by_process, "double table SIGIO") {
    if (pipe(ends)) abort();
    handle(SIGIO, takes_and_counts, 0); with(&table); in_thread(gives_pipe_away); with(&table);
}
/* The handler is installed while the lock is held: by another thread, and the holder has the signal unblocked. */
static void *holds(void *unused) {
    pthread_mutex_lock(&table); pthread_barrier_wait(&both); pthread_barrier_wait(&both); pthread_mutex_unlock(&table);
    pthread_barrier_wait(&both); return unused;
}
WRONG(handler_comes_later, "double table SIGUSR1") {
    pthread_barrier_init(&both, NULL, 2);
    pthread_create(&thread, NULL, holds, NULL); block(SIGUSR1); pthread_barrier_wait(&both);
    handle(SIGUSR1, takes_table, 0);
    pthread_barrier_wait(&both); pthread_barrier_wait(&both); pthread_join(thread, NULL);
    unblock(SIGUSR1); send(SIGUSR1);
}

/* ---- Routines that run once. */

static pthread_once_t once = PTHREAD_ONCE_INIT;
static void prepare(void) {}
static void prepares(int number) { (void)number; pthread_once(&once, prepare); }
/* The handler finds that the routine has run, but had it come in while main ran it, it would wait for main. */
WRONG(once_done, "double once SIGUSR1") { handle(SIGUSR1, prepares, 0); pthread_once(&once, prepare); send(SIGUSR1); }
/* The handler has run the routine before main asks for it: had main come first, the handler would wait for main. */
WRONG(once_by_handler, "double once SIGUSR1") { handle(SIGUSR1, prepares, 0); send(SIGUSR1); pthread_once(&once, prepare); }
/* The handler has run the routine before main asks for it, and the signal is blocked there: later it is always done. */
RIGHT(once_by_handler_blocked) {
    handle(SIGUSR1, prepares, 0); send(SIGUSR1);
    block(SIGUSR1); pthread_once(&once, prepare); unblock(SIGUSR1);
    pthread_once(&once, prepare);
    pthread_mutex_lock(&table); pthread_once(&once, prepare); pthread_mutex_unlock(&table);
}
/* The routine has run before there is a handler, so nobody waits for it afterwards: neither the handler, nor main with a lock held. */
RIGHT(once_before) {
    pthread_once(&once, prepare); handle(SIGUSR1, prepares, SA_NODEFER);
    pthread_mutex_lock(&table); pthread_once(&once, prepare); pthread_mutex_unlock(&table); with(&table);
    send(SIGUSR1);
}

/* ---- Locks for readers and writers. A reader of `queue` waits behind a waiting writer. */

static pthread_rwlock_t config = PTHREAD_RWLOCK_INITIALIZER, queue = PTHREAD_RWLOCK_WRITER_NONRECURSIVE_INITIALIZER_NP,
                        second_queue = PTHREAD_RWLOCK_WRITER_NONRECURSIVE_INITIALIZER_NP;
static inline void read_in(pthread_rwlock_t *lock) { pthread_rwlock_rdlock(lock); pthread_rwlock_unlock(lock); }
static inline void write_in(pthread_rwlock_t *lock) { pthread_rwlock_wrlock(lock); pthread_rwlock_unlock(lock); }
static inline void try_to_write_in(pthread_rwlock_t *lock) { if (pthread_rwlock_trywrlock(lock) == 0) pthread_rwlock_unlock(lock); }
static void reads(int number) { (void)number; read_in(&config); }
static void writes(int number) { (void)number; write_in(&config); }
static void reads_queue(int number) { (void)number; read_in(&queue); }
/* The handler takes it for reading, main for writing with the signal unblocked. */
WRONG(read_write, "double config SIGHUP") { handle(SIGHUP, reads, 0); write_in(&config); send(SIGHUP); }
/* Handler and main take it for writing with the signal unblocked. glibc says EDEADLK to a writer that asks again, but for a moment in taking it and
   one in releasing it: a handler that comes in then hangs. */
WRONG(writes_twice, "double config SIGHUP") { handle(SIGHUP, writes, 0); write_in(&config); send(SIGHUP); }
/* Handler and main take it for reading with the signal unblocked; main blocks the signal to write. */
RIGHT(readers) { handle(SIGHUP, reads, 0); read_in(&config); block(SIGHUP); write_in(&config); unblock(SIGHUP); send(SIGHUP); }
/* The handler's lock is for readers, and writers try: main reads with the signal unblocked, and a worker writes with it blocked. */
static void *tries_to_write(void *unused) { block(SIGUSR1); try_to_write_in(&config); return unused; }
RIGHT(worker_state) { handle(SIGUSR1, reads, 0); read_in(&config); in_thread(tries_to_write); send(SIGUSR1); }
/* Handler and main read queue with the signal unblocked: the handler waits for the waiting writer, which waits for the reader that the handler has
   interrupted. */
static void *writes_queue(void *unused) { block(SIGHUP); write_in(&queue); return unused; }
WRONG(reader_behind_writer, "double queue SIGHUP") { handle(SIGHUP, reads_queue, 0); read_in(&queue); in_thread(writes_queue); send(SIGHUP); }
/* A reader of queue would wait behind a waiting writer, but nobody ever writes there: a try gives up at once. */
static void *writes_elsewhere(void *unused) { block(SIGHUP); try_to_write_in(&queue); write_in(&second_queue); return unused; }
RIGHT(readers_without_writer) { handle(SIGHUP, reads_queue, 0); read_in(&queue); in_thread(writes_elsewhere); send(SIGHUP); }
/* The handler only tries to read queue, and goes on without it. */
static void tries_to_read(int number) { (void)number; if (pthread_rwlock_tryrdlock(&queue) == 0) pthread_rwlock_unlock(&queue); }
RIGHT(tries_behind_writer) { handle(SIGHUP, tries_to_read, 0); read_in(&queue); send(SIGHUP); }

/* ---- Joins. */

/* The handler joins the worker, which takes the lock; main takes it with the signal unblocked. If the signal comes in there, the handler waits for
   the worker, which waits for main. */
static void *takes_without_term(void *unused) { block(SIGTERM); with(&table); return unused; }
WRONG(joins_in_handler, "inversion thread:takes_without_term table SIGTERM") {
    handle(SIGTERM, joins, 0); with(&table);
    block(SIGTERM); pthread_create(&thread, NULL, takes_without_term, NULL); unblock(SIGTERM);
    send(SIGTERM);
}
/* The handler joins the worker, which takes a lock that main takes with the signal blocked alone. The worker has the signal blocked. */
RIGHT(joins_idle) {
    handle(SIGTERM, joins, 0);
    block(SIGTERM); pthread_create(&thread, NULL, takes, NULL); with(&table); unblock(SIGTERM);
    send(SIGTERM);
}
/* Main joins the worker with the lock held. If the signal comes in at the worker meanwhile, its handler waits for that lock, and the worker doesn't
   end. */
static void *gets_signal(void *unused) { raise(SIGUSR1); with(&other); return unused; }
WRONG(joined_with_lock, "inversion table other SIGUSR1; inversion table thread:gets_signal SIGUSR1") {
    handle(SIGUSR1, takes_and_counts, 0); pthread_create(&thread, NULL, gets_signal, NULL); block(SIGUSR1); awaits_run(NULL);
    pthread_mutex_lock(&table); pthread_join(thread, NULL); pthread_mutex_unlock(&table);
}

/* ---- Timers: what they alone send comes in only where one is armed. */

static atomic_bool is_held, is_timed;
static void await_runs(int count) { while (runs < count) sched_yield(); }
static void set_timer(long first, long again) {
    struct itimerval set = {{again / 1000000, again % 1000000}, {first / 1000000, first % 1000000}};
    handle(SIGALRM, takes_and_counts, 0);
    setitimer(ITIMER_REAL, &set, NULL);
}
#define SOON 1000 /* microseconds */
#define LATER 1000000000 /* which never comes */
/* It is armed once, and has come by the time that the lock is taken. */
RIGHT(timer_over) { set_timer(SOON, 0); await_runs(1); with(&table); }
RIGHT(alarm_not_yet) { handle(SIGALRM, takes_and_counts, 0); with(&table); alarm(1); await_runs(1); }
RIGHT(timer_disarmed) { set_timer(SOON, SOON); await_runs(2); set_timer(0, 0); with(&table); }
/* (No timer comes while the lock is taken, where its handler would wait for ever: the one that is armed is set once more.) */
WRONG(timer_armed, "double table SIGALRM") { set_timer(LATER, 0); with(&table); set_timer(SOON, 0); await_runs(1); }
WRONG(timer_repeats, "double table SIGALRM") { set_timer(SOON, LATER); await_runs(1); with(&table); set_timer(0, 0); }
/* Once it is sent by another call: so it may be again. */
WRONG(timer_and_kill, "double table SIGALRM") { set_timer(SOON, 0); await_runs(1); send(SIGALRM); with(&table); }
/* A timer of the program's own, and another one of the same signal that stays armed. */
static void own_timer(bool is_another) {
    timer_t own[2];
    struct itimerspec soon = {.it_value = {0, 1000 * SOON}}, late = {.it_value = {1000, 0}};
    handle(SIGALRM, takes_and_counts, 0);
    for (int i = 0; i <= is_another; i++) {
        timer_create(CLOCK_MONOTONIC, NULL, &own[i]);
        timer_settime(own[i], 0, i ? &late : &soon, NULL);
    }
    await_runs(1);
    with(&table);
}
RIGHT(own_timer) { own_timer(false); }
WRONG(two_timers, "double table SIGALRM") { own_timer(true); }
/* It is armed while another thread has the lock, which had it before. */
static void *holds_table(void *unused) {
    sigset_t set = only(SIGALRM);
    pthread_sigmask(SIG_BLOCK, &set, NULL);
    pthread_mutex_lock(&table);
    is_held = true;
    while (!is_timed) sched_yield();
    unblock(SIGALRM);
    pthread_mutex_unlock(&table);
    return unused;
}
WRONG(timer_of_other, "double table SIGALRM") {
    pthread_t holder;
    pthread_create(&holder, NULL, holds_table, NULL);
    while (!is_held) sched_yield();
    set_timer(LATER, 0);
    is_timed = true;
    pthread_join(holder, NULL);
    set_timer(SOON, 0);
    await_runs(1);
}

/* ---- Children. */

static int is_late;
static void *raises_or_takes(void *unused) { if (is_late) with(&table); else raise(SIGUSR1); return unused; }
/* Only a forked child takes the lock with the signal unblocked, and gets it; its parent has it blocked. */
WRONG(child, "double table SIGUSR1") {
    handle(SIGUSR1, takes_table, 0); block(SIGUSR1); with(&table);
    if (fork() == 0) { unblock(SIGUSR1); with(&table); send(SIGUSR1); _exit(0); }
    wait(NULL); with(&table);
}
/* A worker gets the signal alone, and in a forked child a worker that runs the same function takes the lock. */
WRONG(thread_of_child, "double table SIGUSR1") {
    handle(SIGUSR1, takes_table, 0);
    in_thread(raises_or_takes);
    pid_t child = fork();
    is_late = child == 0;
    if (is_late) in_thread(raises_or_takes); else waitpid(child, NULL, 0);
}
/* main gets the signal alone, and the main thread of a child that it forks takes the lock: no function started that, so it is another thread. */
RIGHT(main_of_child) {
    handle(SIGUSR1, takes_table, 0);
    raise(SIGUSR1);
    pid_t child = fork();
    if (child == 0) with(&table); else waitpid(child, NULL, 0);
}
/* A worker gets the signal alone, and after exec a worker that runs the same function takes the lock: a program that is run is by itself. */
RIGHT(thread_after_exec) {
    is_late = words[2] != NULL;
    handle(SIGUSR1, takes_table, 0);
    in_thread(raises_or_takes);
    if (!is_late) execl(words[0], words[0], words[1], "again", NULL);
}
/* A child of vfork blocks the signal for itself, before it becomes another program: in its parent it stays unblocked. */
WRONG(blocked_in_child_of_vfork, "double table SIGUSR1") {
    handle(SIGUSR1, takes_table, 0); send(SIGUSR1);
    pid_t child = vfork();
    if (child == 0) { block(SIGUSR1); execl("/bin/true", "true", (char *)NULL); _exit(1); }
    waitpid(child, NULL, 0);
    with(&table);
}
/* A child that shares its parent's memory takes its own handler away and executes a program: the parent has its still. */
WRONG(vfork_child, "double table SIGUSR1") {
    handle(SIGUSR1, takes_table, 0);
    pid_t child = vfork();
    if (child == 0) { signal(SIGUSR1, SIG_DFL); execl("/bin/true", "true", (char *)NULL); _exit(1); }
    waitpid(child, NULL, 0);
    with(&table); send(SIGUSR1);
}
/* A handler forks; its child takes the lock in the handler, and again when the handler has returned. */
static pid_t child_of_handler;
static void forks(int number) { (void)number; child_of_handler = fork(); if (child_of_handler == 0) with(&table); }
WRONG(forks_in_handler, "double table SIGUSR1") {
    handle(SIGUSR1, forks, 0); send(SIGUSR1);
    if (child_of_handler == 0) { with(&table); _exit(0); }
    wait(NULL);
}
/* A handler forks, and its child takes the lock in it: had main held it when the signal came, so would the child. */
static void forks_to_take(int number) { (void)number; if (fork() == 0) { with(&table); _exit(0); } }
WRONG(child_of_handler, "double table SIGUSR1") { handle(SIGUSR1, forks_to_take, 0); with(&table); send(SIGUSR1); wait(NULL); }
/* A handler forks, and its child takes a lock that main takes with the signal blocked; a handler of the child's own takes another one. */
TAKES(takes_of_child, of_child)
static void forks_and_sends(int number) { (void)number; if (fork() == 0) { with(&table); send(SIGUSR2); _exit(0); } }
RIGHT(child_of_handler_blocked) {
    handle(SIGUSR1, forks_and_sends, 0); handle(SIGUSR2, takes_of_child, 0);
    with_blocked(SIGUSR1, &table);
    with_blocked(SIGUSR2, &of_child);
    send(SIGUSR1); wait(NULL);
}
