/* The threads of this process in the file: what each holds, and where it waits or is held back. */
#define _GNU_SOURCE
#include "provoke.h"

#include <fcntl.h>
#include <pthread.h>
#include <stdlib.h>
#include <string.h>
#include <sys/mman.h>
#include <sys/stat.h>
#include <sys/syscall.h>
#include <time.h>
#include <unistd.h>

#define NANOSECONDS_OF_MILLISECOND 1000000L
#define MILLISECONDS 1000L        /* of a second */

/* The most pauses at an order, and the milliseconds of all pauses of a process. */
#define MOST_PAUSES 40
#define MOST_PAUSED 10000

/* A pause at an order that was reached often is shorter: a half after so many pauses, and so on. */
#define PAUSES_OF_ONE_LENGTH 10

/* How often a thread that stands looks whether it is in a cycle by now, in milliseconds; and how long a reader waits for a writer to be before it. */
#define LOOK_AGAIN 4
#define WRITERS_TURN 50

struct table *table;

__thread bool is_ended_anywhere;
static __thread struct thread *mine;
static pthread_key_t at_exit;
static pthread_mutex_t standing = PTHREAD_MUTEX_INITIALIZER;
static long paused; /* milliseconds */

#define LOAD(place) __atomic_load_n(place, __ATOMIC_ACQUIRE)
#define STORE(place, value) __atomic_store_n(place, value, __ATOMIC_RELEASE)
#define ADD(place) __atomic_fetch_add(place, 1, __ATOMIC_RELAXED)

/* ---- Threads. */

static void leave(void *thread) {
    struct thread *own = thread;
    own->held_count = 0;
    own->state = STATE_RUNS;
    STORE(&own->process, 0);
    mine = NULL;
    end_path();
}

bool open_table(const char *path) {
    int file = open(path, O_RDWR | O_CLOEXEC);
    if (file < 0)
        return false;
    struct stat about;
    void *mapped = MAP_FAILED;
    if (fstat(file, &about) == 0 && (size_t)about.st_size >= sizeof *table)
        mapped = mmap(NULL, sizeof *table, PROT_READ | PROT_WRITE, MAP_SHARED, file, 0);
    close(file);
    if (mapped == MAP_FAILED || memcmp(mapped, MAGIC, sizeof table->magic) != 0 || pthread_key_create(&at_exit, leave) != 0)
        return false;
    table = mapped;
    return true;
}

/* A place of the file for a thread. */
static struct thread *free_place(int32_t process) {
    for (int i = 0; i < MOST_THREADS; i++) {
        int32_t nobody = 0;
        if (__atomic_compare_exchange_n(&table->all[i].process, &nobody, process, false, __ATOMIC_ACQ_REL, __ATOMIC_RELAXED))
            return &table->all[i];
    }
    return NULL;
}

/* Whether this thread has a place in the file. There may be too many threads. */
bool is_known_thread(void) {
    if (mine)
        return true;
    struct thread *own = free_place((int32_t)getpid());
    if (!own)
        return false;
    own->thread = (int32_t)syscall(SYS_gettid);
    own->state = STATE_RUNS;
    own->held_count = own->order = own->goes = own->point = 0;
    own->awaited = 0;
    own->self = (uint64_t)pthread_self();
    mine = own;
    pthread_setspecific(at_exit, own);
    return true;
}

bool holds_nothing(void) { return !mine || mine->held_count == 0; }

static bool holds(uint64_t lock) {
    for (uint32_t i = 0; mine && i < mine->held_count; i++)
        if (mine->held[i].lock == lock)
            return true;
    return false;
}

/* The orders whose first locks this thread holds. */
uint64_t held_orders(void) {
    uint64_t orders = 0;
    for (uint32_t i = 0; mine && i < mine->held_count; i++)
        orders |= mine->held[i].lock ? mine->held[i].orders : 0;
    return orders;
}

/* In the child of a fork: its one thread holds what it held, and has a place of its own. */
void forget_other_threads(void) {
    const struct thread *before = mine;
    mine = NULL;
    paused = 0;
    begin_child();
    standing = (pthread_mutex_t)PTHREAD_MUTEX_INITIALIZER;
    if (before && is_known_thread()) {
        memcpy(mine->held, before->held, sizeof mine->held);
        mine->held_count = before->held_count;
    }
}

/* ---- Held locks. */

/* The orders whose first lock one of these locks was, wherever that was seen: a recording has not every place where a lock is taken. */
#define LOCKS 4096

static struct known_lock {
    uintptr_t lock;
    uint64_t orders;
} known_locks[LOCKS];

/* The orders of a lock that is taken now at a place of these orders. Another lock may take its place here. */
static uint64_t orders_of(uintptr_t lock, uint64_t holds) {
    struct known_lock *known = &known_locks[(lock * 0x9E3779B97F4A7C15u >> 32) % LOCKS];
    if (LOAD(&known->lock) == lock)
        return holds ? __atomic_or_fetch(&known->orders, holds, __ATOMIC_RELAXED) : LOAD(&known->orders);
    if (holds) {
        STORE(&known->lock, 0);
        STORE(&known->orders, holds);
        STORE(&known->lock, lock);
    }
    return holds;
}

/* What the thread holds already isn't taken once more, but for a reader who may wait behind a writer. */
static bool is_taking(const struct asked *asked) { return asked->mode == MODE_READ_BEHIND || !holds(asked->lock); }

void note_taken(const struct asked *asked) {
    uint32_t point = is_taking(asked) ? count_taking(asked->caller) : 0;
    pass_point(point, PASSED_TAKEN);
    if (!is_known_thread() || mine->held_count == MOST_HELD)
        return;
    struct held *held = &mine->held[mine->held_count];
    const struct stack *stack = &asked->stack;
    held->mode = (uint8_t)asked->mode;
    held->releasing = (uint8_t)asked->releasing;
    held->point = (uint16_t)point;
    held->orders = orders_of(asked->lock, asked->fits.holds);
    int from = first_planned(stack), count = stack->depth - from;
    held->caller_count = (uint32_t)(count < CALLERS_OF_HELD ? count : CALLERS_OF_HELD);
    for (uint32_t i = 0; i < held->caller_count; i++)
        held->callers[i] = stack->callers[(uint32_t)from + i];
    STORE(&held->lock, asked->lock);
    STORE(&mine->held_count, mine->held_count + 1);
    STORE(&mine->changes, mine->changes + 1);
}

/* A lock that another thread of this process took is handed over to be released. */
static struct held take_from_others(uint64_t lock) {
    for (int i = 0; i < MOST_THREADS; i++) {
        struct thread *other = &table->all[i];
        if (LOAD(&other->process) != getpid())
            continue;
        for (uint32_t k = 0; k < LOAD(&other->held_count); k++) {
            uint64_t expected = lock;
            struct held *held = &other->held[k];
            if (__atomic_compare_exchange_n(&held->lock, &expected, 0, false, __ATOMIC_ACQ_REL, __ATOMIC_RELAXED)) {
                table->is_handed_over = true;
                return (struct held){.lock = lock, .mode = held->mode, .releasing = held->releasing, .orders = held->orders};
            }
        }
    }
    return (struct held){0};
}

/* Ends the newest hold of the lock. The result is what was held, with lock 0 if nothing was. */
struct held note_given(uint64_t lock) {
    struct held none = {0};
    if (!mine)
        return none;
    for (uint32_t i = mine->held_count; i > 0; i--) {
        struct held held = mine->held[i - 1];
        if (held.lock != lock)
            continue;
        pass_point(held.point, PASSED_RELEASED);
        memmove(&mine->held[i - 1], &mine->held[i], (mine->held_count - i) * sizeof held);
        STORE(&mine->held_count, mine->held_count - 1);
        STORE(&mine->changes, mine->changes + 1);
        return held;
    }
    return take_from_others(lock);
}

/* After a wait for a condition at a place of these orders, which gives the lock and takes it again. */
void note_retaken(const struct held *held, uint64_t holds) {
    if (!held->lock || !is_known_thread() || mine->held_count == MOST_HELD)
        return;
    mine->held[mine->held_count] = *held;
    mine->held[mine->held_count].orders |= orders_of(held->lock, holds);
    STORE(&mine->held_count, mine->held_count + 1);
    STORE(&mine->changes, mine->changes + 1);
}

/* ---- Waits. */

static void note_wanted(const struct asked *asked, enum state state) {
    mine->caller_count = (uint32_t)asked->stack.depth;
    for (int i = 0; i < asked->stack.depth; i++)
        mine->callers[i] = asked->stack.callers[i];
    mine->mode = asked->mode;
    mine->call = asked->call | (asked->call == CALL_JOIN || is_ended_anywhere ? CALL_INTERRUPTIBLE : 0); /* (a join ends if its thread is cancelled) */
    mine->point = asked->point;
    STORE(&mine->awaited, asked->lock);
    STORE(&mine->state, state);
    STORE(&mine->changes, mine->changes + 1);
    __atomic_thread_fence(__ATOMIC_SEQ_CST); /* of two threads that come at once one sees the other */
}

void begin_wait(const struct asked *asked) {
    if (is_known_thread())
        note_wanted(asked, STATE_WAITS);
}

void end_wait(void) {
    if (!mine)
        return;
    STORE(&mine->state, STATE_RUNS);
    STORE(&mine->changes, mine->changes + 1);
    mine->order = mine->goes = mine->point = 0;
}

/* ---- Cycles. */

/* A thread of another process waits for this one's only at locks that both share. */
static bool is_asking(const struct thread *thread) {
    return thread->state != STATE_RUNS && (thread->process == mine->process || (thread->process && thread->awaited & SHARED_LOCK));
}

static bool is_asked_for_by_writer(uint64_t lock) {
    for (int i = 0; i < MOST_THREADS; i++)
        if (is_asking(&table->all[i]) && table->all[i].awaited == lock && table->all[i].mode == MODE_WRITE)
            return true;
    return false;
}

/* Whether the thread holds the lock, so that one that wants it in this mode has to wait: also a reader for another one, if a writer that
   waits for that one is before it. */
static bool is_in_the_way(const struct thread *thread, uint64_t lock, enum mode mode) {
    if (thread->self == lock && !(lock & SHARED_LOCK))
        return true;
    for (uint32_t i = 0; i < thread->held_count; i++) {
        const struct held *held = &thread->held[i];
        if (held->lock == lock && (mode == MODE_WRITE || held->mode == MODE_WRITE || (mode == MODE_READ_BEHIND && is_asked_for_by_writer(lock))))
            return true;
    }
    return false;
}

/* Whether what this thread wants is, over others that stand or wait, in the way of what it holds itself. Those that stand are let go. */
static bool leads_back(struct thread *from, bool *seen) {
    if (is_in_the_way(mine, from->awaited, from->mode))
        return true;
    for (int i = 0; i < MOST_THREADS; i++) {
        struct thread *next = &table->all[i];
        if (seen[i] || next == mine || !is_asking(next) || !is_in_the_way(next, from->awaited, from->mode))
            continue;
        seen[i] = true;
        if (leads_back(next, seen)) {
            STORE(&next->goes, 1);
            return true;
        }
    }
    return false;
}

/* ---- Standing. */

/* The first pause at an order may be another one; of several orders of one place so many. */
static long pause_length(uint64_t orders, uint32_t pauses) {
    const char *given = getenv("LOCKDEP_PROVOKE_PAUSE");
    long length = given ? atol(given) : 0, first = first_pause_at((unsigned)__builtin_ctzll(orders));
    return pauses < (uint32_t)__builtin_popcountll(orders) && first ? first : length >> (pauses / PAUSES_OF_ONE_LENGTH);
}

static void sleep_shortly(void) {
    struct timespec time = {0, NANOSECONDS_OF_MILLISECOND};
    syscall(SYS_clock_nanosleep, CLOCK_MONOTONIC, 0, &time, NULL);
}

static long now(void) {
    struct timespec time;
    clock_gettime(CLOCK_MONOTONIC, &time);
    return time.tv_sec * MILLISECONDS + time.tv_nsec / NANOSECONDS_OF_MILLISECOND;
}

static bool closes(void) {
    bool seen[MOST_THREADS] = {false};
    real_lock(&standing);
    bool is_closed = leads_back(mine, seen);
    real_unlock(&standing);
    return is_closed;
}

static void note_blocked(uint32_t stands, uint32_t waits) {
    uint32_t none = 0;
    if (__atomic_compare_exchange_n(&table->blocked.stands, &none, stands, false, __ATOMIC_ACQ_REL, __ATOMIC_RELAXED))
        table->blocked.waits = waits;
}

/* Whether a thread waits for this one before it has come to its stop, so that it never comes while this one stands. */
static bool is_waited_for(const struct asked *asked) {
    for (int i = 0; i < MOST_THREADS; i++) {
        const struct thread *other = &table->all[i];
        if (other == mine || other->process != mine->process || other->state != STATE_WAITS || !is_before_stop(other->point) ||
            !is_in_the_way(mine, other->awaited, other->mode))
            continue;
        note_blocked(asked->point, other->point);
        return true;
    }
    return false;
}

/* Lets writers go that stand at a lock. Whether there are such. */
static bool let_writers_go(uint64_t lock) {
    bool are_some = false;
    for (int i = 0; i < MOST_THREADS; i++) {
        struct thread *other = &table->all[i];
        if (!is_asking(other) || other->state != STATE_STANDS || other->awaited != lock || other->mode != MODE_WRITE)
            continue;
        STORE(&other->goes, 1);
        are_some = true;
    }
    return are_some;
}

/* A reader that waits behind a writer lets it be first. */
static void let_writers_first(const struct asked *asked) {
    if (asked->mode != MODE_READ_BEHIND)
        return;
    for (int i = 0; i < WRITERS_TURN && let_writers_go(asked->lock); i++)
        sleep_shortly();
}

/* Holds this thread back until it is in a cycle, or for this many milliseconds. At a point of the schedule also until that can't be gone on with. */
static void stand(const struct asked *asked, long length) {
    long end = now() + length, from = now();
    bool is_closed = closes();
    for (long looks = 1; !is_closed && !LOAD(&mine->goes) && now() < end; looks++) {
        sleep_shortly();
        if (looks % LOOK_AGAIN == 0)
            is_closed = closes();
        if (asked->point && !is_closed && (is_schedule_over() || is_waited_for(asked)))
            break;
    }
    if (is_closed || LOAD(&mine->goes))
        let_writers_first(asked);
    else if (asked->point && now() >= end && !is_schedule_over())
        note_blocked(asked->point, 0);
    __atomic_fetch_add(&paused, now() - from, __ATOMIC_RELAXED);
}

/* The orders, of those that are wanted here, whose first lock this thread holds. (A lock that isn't known as the first one of an order may
   be it all the same: so a thread also stands if it holds another, but as one that is at no order.) A handler may want the lock itself that
   is held where its signal came in. */
static uint64_t orders_under_way(const struct asked *asked) {
    uint64_t under = 0;
    for (uint32_t i = 0; i < mine->held_count; i++) {
        bool is_another = mine->held[i].lock != asked->lock || asked->mode == MODE_READ_BEHIND;
        uint64_t fitting = is_another ? asked->fits.wants : asked->fits.wants & orders_by_signals();
        under |= mine->held[i].lock ? mine->held[i].orders & fitting : 0;
    }
    return under;
}

static void count_reached(uint64_t wants, uint64_t under) {
    uint32_t when = wants ? (uint32_t)now() : 0;
    for (; wants; wants &= wants - 1) {
        struct counts *counts = &table->counts[__builtin_ctzll(wants)];
        uint32_t never = 0;
        __atomic_compare_exchange_n(&counts->first, &never, when, false, __ATOMIC_RELAXED, __ATOMIC_RELAXED);
        STORE(&counts->last, when);
        ADD(&counts->reached);
        if (under & wants & -wants)
            ADD(&counts->under);
    }
}

/* At the second lock of some orders, with another one held, the thread stands until it is in a cycle, or for a pause. A handler stands only at an order
   by its signal. */
static void consider(const struct asked *asked, uint64_t under) {
    if (holds_nothing() || (asked->stack.is_in_handler && !(under & orders_by_signals())))
        return;
    uint64_t orders = under ? under : asked->fits.wants;
    unsigned order = (unsigned)__builtin_ctzll(orders);
    struct counts *counts = &table->counts[order];
    long length = pause_length(orders, LOAD(&counts->pauses));
    if (LOAD(&counts->pauses) >= MOST_PAUSES || LOAD(&paused) >= MOST_PAUSED)
        return;
    ADD(&counts->pauses);
    mine->order = under ? order + 1 : 0;
    mine->goes = 0;
    note_wanted(asked, STATE_STANDS);
    stand(asked, length);
    STORE(&mine->state, STATE_RUNS);
}

static void let_go_first(const struct asked *asked, uint32_t before) {
    long end = now() + pause_at(asked->point);
    while (before && !has_passed(before, PASSED_RELEASED) && !is_over(before) && !is_schedule_over() && !is_waited_for(asked)) {
        if (now() >= end) {
            note_blocked(asked->point, 0);
            return;
        }
        sleep_shortly();
    }
}

/* At a point of the schedule: who takes the lock before has to release it first; and where the threads are to stand still, this one stands until all
   do. Who waits for a thread's end needn't be held back for that. */
static void follow(const struct asked *asked) {
    pass_point(asked->point, PASSED_ASKED);
    let_go_first(asked, point_before(asked->point));
    if (!order_of_stop(asked->point))
        return;
    mine->order = order_of_stop(asked->point);
    mine->goes = 0;
    if (asked->call == CALL_JOIN)
        return;
    note_wanted(asked, STATE_STANDS);
    stand(asked, pause_at(asked->point));
    STORE(&mine->state, STATE_RUNS);
}

static void hold_back(const struct asked *asked) {
    if (asked->point)
        follow(asked);
    else if (asked->fits.wants && !has_points())
        consider(asked, orders_under_way(asked));
}

/* Called where a lock is asked for that this thread may have to be held back at. In a wait for a condition it is so only before it takes the lock
   again. */
void come_to(struct asked *asked) {
    bool is_known = is_known_thread();
    asked->point = is_known && is_taking(asked) ? next_point(asked->caller) : 0;
    count_reached(asked->fits.wants, is_known ? orders_under_way(asked) : 0);
    if (is_known && asked->call != CALL_CONDITION)
        hold_back(asked);
}

/* Whether it may have to be held back there. Of a lock that processes share the other ones know nothing of that. */
bool is_held_back(const struct asked *asked) {
    bool is_planned = asked->point || (asked->fits.wants && !has_points() && !holds_nothing());
    return is_planned && !(asked->lock & SHARED_LOCK);
}

/* Called where a thread is about to take a lock again, after a wait for a condition. */
void come_back(const struct asked *asked) {
    if (is_known_thread())
        hold_back(asked);
}
