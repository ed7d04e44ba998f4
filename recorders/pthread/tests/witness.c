/* Does what a script says, and writes down after each call what that has returned: SCRIPT LOG. The script is one of witness.py, which
   knows what comes of each step, so that only those block that are meant to.

   A step is a thread, a letter, a slot and a number. Each thread has its turn by a semaphore, which isn't recorded. A line of the log is
   who did it, the letter, the slot, which of the locks in that slot it was, and what was returned. Each slot's lock is made in a function
   of its own, so that a trace names it. */
#include "common.h"
#include <semaphore.h>
#include <stdint.h>
#include <sys/mman.h>
#include <sys/time.h>
#include <fcntl.h>

#define KINDS 7
enum { NORMAL, MADE, READ, READ_MADE, SPIN, HEAP, MAPPED };
#define EACH 6 /* slots of each kind; then the marks of who comes */
#define MARKS 32
#define MARK (KINDS * EACH)
#define SLOTS (MARK + MARKS)
#define PAGE 4096
#define BEFORE 48 /* bytes before a lock in allocated memory */

static void *slots[SLOTS];
static int lives[SLOTS]; /* how many locks there were */

struct maker {
    void *normal, *read;
    int (*made)(int kind), (*read_made)(int kind), (*spin)(void);
    char *(*heap)(void), *(*mapped)(void);
};

#define SLOT(k)                                                                                                        \
    static pthread_mutex_t normal_##k = PTHREAD_MUTEX_INITIALIZER, made_##k;                                           \
    static pthread_rwlock_t read_##k = PTHREAD_RWLOCK_INITIALIZER, read_made_##k;                                      \
    static pthread_spinlock_t spin_##k;                                                                                \
    static APART int init_made_##k(int kind) {                                                                         \
        pthread_mutexattr_t how;                                                                                       \
        pthread_mutexattr_init(&how);                                                                                  \
        pthread_mutexattr_settype(&how, kind);                                                                         \
        return pthread_mutex_init(&made_##k, &how);                                                                    \
    }                                                                                                                  \
    static APART int init_read_made_##k(int prefers) {                                                                 \
        pthread_rwlockattr_t how;                                                                                      \
        pthread_rwlockattr_init(&how);                                                                                 \
        if (prefers)                                                                                                   \
            pthread_rwlockattr_setkind_np(&how, PTHREAD_RWLOCK_PREFER_WRITER_NONRECURSIVE_NP);                         \
        return pthread_rwlock_init(&read_made_##k, &how);                                                              \
    }                                                                                                                  \
    static APART int init_spin_##k(void) { return pthread_spin_init(&spin_##k, 0); }                                   \
    static APART char *new_heap_##k(void) { return malloc(BEFORE + sizeof(pthread_mutex_t) + 16 * k); }                \
    static APART char *new_mapped_##k(void) {                                                                          \
        return mmap(NULL, PAGE, PROT_READ | PROT_WRITE, MAP_PRIVATE | MAP_ANONYMOUS, -1, 0);                           \
    }
#define MAKER(k)                                                                                                       \
    {&normal_##k, &read_##k, init_made_##k, init_read_made_##k, init_spin_##k, new_heap_##k, new_mapped_##k},
#define ALL_SLOTS(X) X(0) X(1) X(2) X(3) X(4) X(5)
#define ALL_MARKS(X)                                                                                                   \
    X(0) X(1) X(2) X(3) X(4) X(5) X(6) X(7) X(8) X(9) X(10) X(11) X(12) X(13) X(14) X(15) X(16) X(17) X(18) X(19)      \
    X(20) X(21) X(22) X(23) X(24) X(25) X(26) X(27) X(28) X(29) X(30) X(31)
#define A_MARK(k) static pthread_mutex_t mark_##k = PTHREAD_MUTEX_INITIALIZER;
#define MARK_AT(k) &mark_##k,

ALL_SLOTS(SLOT)
ALL_MARKS(A_MARK)
static const struct maker makers[] = {ALL_SLOTS(MAKER)};
static pthread_mutex_t *const marks[] = {ALL_MARKS(MARK_AT)};

static int kind_of(int slot) { return slot >= MARK ? NORMAL : slot / EACH; }
static int is_rwlock(int slot) { return kind_of(slot) == READ || kind_of(slot) == READ_MADE; }

static void place_static(void) {
    void *const made[] = {&made_0, &made_1, &made_2, &made_3, &made_4, &made_5};
    void *const read_made[] = {&read_made_0, &read_made_1, &read_made_2, &read_made_3, &read_made_4, &read_made_5};
    void *const spin[] = {(void *)&spin_0, (void *)&spin_1, (void *)&spin_2, (void *)&spin_3, (void *)&spin_4, (void *)&spin_5};
    for (int k = 0; k < EACH; k++) {
        slots[NORMAL * EACH + k] = makers[k].normal;
        slots[MADE * EACH + k] = made[k];
        slots[READ * EACH + k] = makers[k].read;
        slots[READ_MADE * EACH + k] = read_made[k];
        slots[SPIN * EACH + k] = spin[k];
    }
    for (int k = 0; k < MARKS; k++)
        slots[MARK + k] = marks[k];
}

/* ---- The script. */

#define MOST_STEPS 4096
struct step {
    int thread, slot, number;
    char what;
};
static struct step steps[MOST_STEPS];
static int step_count, log_file;

static __thread int who, lines_of_who;

static void note(char what, int slot, int answer) {
    dprintf(log_file, "%d %c %d %d %d\n", who, what, slot, slot >= 0 ? lives[slot] : 0, answer);
    lines_of_who++;
}

/* ---- Steps with one lock. */

static int take(int slot) {
    void *lock = slots[slot];
    if (kind_of(slot) == SPIN)
        return pthread_spin_lock(lock);
    return is_rwlock(slot) ? pthread_rwlock_wrlock(lock) : pthread_mutex_lock(lock);
}

static int try(int slot) {
    void *lock = slots[slot];
    if (kind_of(slot) == SPIN)
        return pthread_spin_trylock(lock);
    return is_rwlock(slot) ? pthread_rwlock_trywrlock(lock) : pthread_mutex_trylock(lock);
}

static int give(int slot) {
    void *lock = slots[slot];
    if (kind_of(slot) == SPIN)
        return pthread_spin_unlock(lock);
    return is_rwlock(slot) ? pthread_rwlock_unlock(lock) : pthread_mutex_unlock(lock);
}

static int take_until(int slot) {
    struct timespec until = in_milliseconds(CLOCK_REALTIME, 1);
    return is_rwlock(slot) ? pthread_rwlock_timedwrlock(slots[slot], &until) : pthread_mutex_timedlock(slots[slot], &until);
}

static int wait_a_moment(int slot) {
    static pthread_cond_t condition = PTHREAD_COND_INITIALIZER;
    struct timespec until = in_milliseconds(CLOCK_REALTIME, 1);
    return pthread_cond_timedwait(&condition, slots[slot], &until);
}

static int make(int slot, int how) {
    const struct maker *m = &makers[slot % EACH];
    lives[slot]++;
    if (kind_of(slot) == MADE)
        return m->made(how);
    if (kind_of(slot) == READ_MADE)
        return m->read_made(how);
    if (kind_of(slot) == SPIN)
        return m->spin();
    slots[slot] = kind_of(slot) == HEAP ? m->heap() + BEFORE : m->mapped();
    memset(slots[slot], 0, sizeof(pthread_mutex_t));
    return 0;
}

static int destroy(int slot) {
    void *lock = slots[slot];
    if (kind_of(slot) == SPIN)
        return pthread_spin_destroy(lock);
    return is_rwlock(slot) ? pthread_rwlock_destroy(lock) : pthread_mutex_destroy(lock);
}

static int give_back(int slot) {
    if (kind_of(slot) == MAPPED)
        return munmap(slots[slot], PAGE);
    free((char *)slots[slot] - BEFORE);
    return 0;
}

static int assign(int slot) {
    if (is_rwlock(slot))
        *(pthread_rwlock_t *)slots[slot] = (pthread_rwlock_t)PTHREAD_RWLOCK_INITIALIZER;
    else
        *(pthread_mutex_t *)slots[slot] = (pthread_mutex_t)PTHREAD_MUTEX_INITIALIZER;
    return 0;
}

static int answer_of(const struct step *s) {
    switch (s->what) {
        case 'L': return take(s->slot);
        case 'T': return try(s->slot);
        case 'D': return take_until(s->slot);
        case 'R': return pthread_rwlock_rdlock(slots[s->slot]);
        case 'Y': return pthread_rwlock_tryrdlock(slots[s->slot]);
        case 'U': return give(s->slot);
        case 'C': return wait_a_moment(s->slot);
        case 'I': return make(s->slot, s->number);
        case 'X': return destroy(s->slot);
        case 'F': return give_back(s->slot);
        case 'A': return assign(s->slot);
        case 'G': return 0; /* it was released by another */
        default: abort();
    }
}

static void do_step(const struct step *s) {
    int answer = answer_of(s);
    note(s->what, s->slot, answer);
    if (s->what == 'I')
        note('k', s->slot, s->number);
}

/* ---- Forks. The handlers take the slots that stand before the step, and in the child do as its number says. */

static int handled[SLOTS], handled_count, child_who;
static char in_child;

static void before_fork(void) {
    for (int i = 0; i < handled_count; i++)
        note('L', handled[i], take(handled[i]));
}

static void after_fork(void) {
    for (int i = handled_count; i-- > 0;)
        note('U', handled[i], give(handled[i]));
}

static void after_fork_in_child(void) {
    int parent = who, lines = lines_of_who;
    who = child_who;
    lines_of_who = 0;
    dprintf(log_file, "%d B %d %d 0\n", who, parent, lines);
    for (int i = handled_count; i-- > 0;) {
        struct step s = {0, handled[i], 0, in_child};
        do_step(&s);
    }
}

static int end_of_child(int at) {
    while (steps[at].what != 'E')
        at++;
    return at;
}

static void *run_other(void *at) {
    const struct step *s = at;
    who = s->thread;
    for (; s->what != 'E' && s->thread == who; s++)
        do_step(s);
    return NULL;
}

/* The child's own steps stand behind the fork, and then those of a thread of its. */
static void run_child(int at) {
    int first = steps[at].thread;
    for (; steps[at].what != 'E' && steps[at].thread == first; at++)
        do_step(&steps[at]);
    if (steps[at].what != 'E')
        in_thread(run_other, &steps[at]);
    _exit(0);
}

static void do_fork(int at) {
    int status = 1;
    handled_count = 0;
    in_child = (char)steps[at].number;
    child_who = steps[at].slot;
    for (int i = at + 1; steps[i].what == 'H'; i++)
        handled[handled_count++] = steps[i].slot;
    pid_t child = fork();
    if (child == 0)
        run_child(at + 1 + handled_count);
    if (waitpid(child, &status, 0) != child || status != 0)
        abort();
}

/* ---- Turns. */

#define THREADS 8
static sem_t turns[THREADS], done[THREADS];
static volatile int now[THREADS];

static void *run_thread(void *number) {
    who = (int)(intptr_t)number;
    for (;;) {
        sem_wait(&turns[who]);
        const struct step *s = &steps[now[who]];
        if (s->what == 'Q')
            return NULL;
        if (s->what == 'K')
            do_fork(now[who]);
        else
            do_step(s);
        sem_post(&done[(intptr_t)number]);
    }
}

/* `B` lets a thread begin a step that blocks, which follows it; `W` waits for that. */
static int go_on(int at) {
    struct step *s = &steps[at];
    if (s->what == 'W') {
        sem_wait(&done[s->thread]);
        return at + 1;
    }
    int is_blocking = s->what == 'B';
    now[s->thread] = at + is_blocking;
    sem_post(&turns[s->thread]);
    if (is_blocking)
        usleep(1500);
    else if (s->what != 'Q')
        sem_wait(&done[s->thread]);
    return (s->what == 'K' ? end_of_child(at) : at + is_blocking) + 1;
}

static int read_script(const char *path) {
    FILE *file = fopen(path, "r");
    while (file && step_count < MOST_STEPS) {
        struct step *s = &steps[step_count];
        if (fscanf(file, "%d %c %d %d", &s->thread, &s->what, &s->slot, &s->number) != 4)
            break;
        step_count++;
    }
    return file ? fclose(file) == 0 && step_count < MOST_STEPS : 0;
}

int main(int argc, char **argv) {
    pthread_t threads[THREADS];
    log_file = argc > 2 ? open(argv[2], O_WRONLY | O_CREAT | O_TRUNC | O_APPEND, 0644) : -1;
    if (log_file < 0 || !read_script(argv[1]))
        return 2;
    place_static();
    pthread_atfork(before_fork, after_fork, after_fork_in_child);
    for (int i = 0; i < THREADS; i++) {
        sem_init(&turns[i], 0, 0);
        sem_init(&done[i], 0, 0);
        pthread_create(&threads[i], NULL, run_thread, (void *)(intptr_t)i);
    }
    for (int at = 0; at < step_count;)
        at = go_on(at);
    for (int i = 0; i < THREADS; i++)
        pthread_join(threads[i], NULL);
    return 0;
}
