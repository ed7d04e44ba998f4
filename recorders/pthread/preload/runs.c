/* Runs of signals' handlers. Each is a thread of its own in the recording, so that it may interrupt the recorder anywhere: what the thread is
   in the midst of is kept until the run is over, and the run begins with nothing. It gets a trace at its first lock, and a run that takes none
   leaves nothing. A signal that the code brings upon itself, as by a fault, is a call that it made: such a run goes on with what it
   interrupted. */
#include "held.h"

#include <setjmp.h>
#include <signal.h>
#include <string.h>
#include <sys/syscall.h>
#include <ucontext.h>
#include <unistd.h>

#define REALS(X) X(longjmp) X(_longjmp) X(siglongjmp) X(__longjmp_chk)
void __longjmp_chk(struct __jmp_buf_tag to[1], int value) __attribute__((noreturn));
REALS(KNOWN_REAL)
FIND_AT_START(REALS)

/* ---- What is kept of a thread of the system's. */

static struct runs *all_runs; /* in use or not */

static struct runs *unused_runs(void) {
    for (struct runs *r = LOAD(&all_runs); r; r = r->next) {
        uint32_t is_taken = LOAD(&r->is_taken);
        if (!is_taken && SWAP(&r->is_taken, &is_taken, 1))
            return r;
    }
    struct runs *r = take_private(sizeof *r);
    if (!r)
        return NULL;
    r->is_taken = 1;
    r->next = LOAD(&all_runs);
    while (!SWAP(&all_runs, &r->next, r))
        continue;
    return r;
}

/* They are given back when the thread ends. */
__attribute__((noinline)) static struct runs *make_runs(void) {
    self.runs = unused_runs();
    if (self.runs)
        watch_thread_end();
    return self.runs;
}

void forget_runs_of_parent(void) {
    if (!self.runs)
        return;
    self.runs->threads = NULL;
    memset(self.runs->known, 0, sizeof self.runs->known);
    for (uint32_t level = 0; level < self.runs->depth; level++)
        self.runs->interrupted[level].is_of_parent = true;
}

void drop_runs(void) {
    struct runs *r = self.runs;
    if (!r)
        return;
    self.runs = NULL;
    r->depth = r->left_count = 0;
    r->threads = NULL;
    memset(r->known, 0, sizeof r->known);
    STORE(&r->is_taken, 0);
}

uint32_t level_of_runs(void) { return self.runs ? self.runs->depth : 0; }

struct thread **thread_at_level(uint32_t level) {
    return level == level_of_runs() ? &self.thread : &self.runs->interrupted[level].current.thread;
}

uint32_t run_source(void) { return level_of_runs() ? self.runs->interrupted[self.runs->depth - 1].source : 0; }

bool is_run_of_parent(void) { return level_of_runs() && self.runs->interrupted[self.runs->depth - 1].is_of_parent; }

/* The thread as which earlier runs of the source were recorded; NULL if none of them took a lock. */
__attribute__((noinline)) static struct thread *idle_run(struct runs *r, uint32_t source) {
    for (struct thread *t = r->threads; t; t = t->next_run)
        if (t->source == source && !t->is_running) {
            t->is_running = true;
            forget_uses(t);
            return t;
        }
    return NULL;
}

void add_run(struct thread *t) {
    t->next_run = self.runs->threads;
    self.runs->threads = t;
}

bool is_held_below(uintptr_t lock) {
    for (uint32_t level = 0; level < level_of_runs(); level++) {
        const struct thread *t = *thread_at_level(level);
        for (uint32_t i = 0; t && i < t->depth; i++)
            if (t->entries[i].held.lock == lock)
                return true;
    }
    return false;
}

/* ---- Locks that a run leaves locked. Its trace gives them back; what it has interrupted takes them over when it comes next. */

void leave_lock(const struct held *h) {
    struct runs *r = self.runs;
    if (!r || !r->depth || r->left_count == MOST_LEFT || h->is_pending)
        return;
    uint32_t mode = raw_mode(h->what[BY_OBJECTS]);
    r->left[r->left_count++] = (struct left){h->lock, raw_object(h->what[BY_OBJECTS]), r->depth - 1,
                                             (uint8_t)(mode % TRIES + TRIES), h->kind};
}

/* (what runs on top of it has ended) */
bool is_left_for(struct left *left) {
    struct runs *r = self.runs;
    if (!r || !r->left_count || r->left[r->left_count - 1].level < r->depth)
        return false;
    *left = r->left[--r->left_count];
    return true;
}

/* ---- The beginning of a run. */

/* Of these signals some come from what the code does itself. */
bool may_be_continuation(int number) {
    switch (number) {
    case SIGSEGV:
    case SIGBUS:
    case SIGFPE:
    case SIGILL:
    case SIGTRAP:
    case SIGSYS:
    case SIGABRT:
    case SIGPIPE: return true;
    default: return false;
    }
}

static bool is_continuation(int number, const siginfo_t *info) {
    if (number == SIGABRT || number == SIGPIPE)
        return info->si_code <= 0 && (uint32_t)info->si_pid == LOAD(&own_id);
    return info->si_code > 0;
}

/* What has sent a signal that doesn't say to whom; NULL if that was another process, or a call that sends to the process. */
static const struct sender *sender_of(const siginfo_t *info) {
    if (info->si_code == SI_TIMER)
        return &senders[TIMERS];
    if (info->si_code == SI_QUEUE)
        return (uint32_t)info->si_pid == LOAD(&own_id) ? &senders[QUEUES] : NULL;
    return info->si_code > 0 ? &senders[OWNED_FILES] : NULL;
}

/* Who may have sent a signal to a thread may have sent it to the process otherwise, unless it is always done so. */
__attribute__((noinline)) static uint32_t sent_otherwise(int number, const siginfo_t *info) {
    const struct sender *by = sender_of(info);
    uint32_t to = by && LOAD(&by->to_threads) & ~LOAD(&by->to_processes) & bit_of(number) ? SENT_TO_THREAD : SENT_TO_PROCESS;
    return to | (has_fired(number, info) ? SENT_BY_TIMER : SENT_BY_OTHERS);
}

QUICK uint32_t sent_to(int number, const siginfo_t *info) {
    return info->si_code == SI_TKILL ? SENT_TO_THREAD | SENT_BY_OTHERS
           : info->si_code == SI_USER ? SENT_TO_PROCESS | SENT_BY_OTHERS
                                      : sent_otherwise(number, info);
}

__attribute__((noinline)) static struct raw_run *found_run(struct runs *r, uint32_t source) {
    uint32_t i = source % KNOWN_RUNS;
    struct raw_run *run = run_of(source);
    r->known[i].source = 0;
    __atomic_signal_fence(__ATOMIC_SEQ_CST);
    r->known[i].run = run;
    __atomic_signal_fence(__ATOMIC_SEQ_CST);
    r->known[i].source = run ? source : 0;
    return run;
}

QUICK void count_run(struct runs *r, int number, uint32_t source, const siginfo_t *info) {
    uint32_t i = source % KNOWN_RUNS;
    struct raw_run *run = LIKELY(r->known[i].source == source) ? r->known[i].run : found_run(r, source);
    if (LIKELY(run)) {
        run->count++;
        run->sent |= sent_to(number, info);
    }
}

/* (of a thread without a stack for handlers it has size 0) */
QUICK bool is_on_own_stack(uintptr_t address, const stack_t *stack) { return address - (uintptr_t)stack->ss_sp < stack->ss_size; }

__attribute__((noinline)) static void end_thread_of_run(struct call call) { end_run(self.thread, call); }

/* Takes the newest one out, and puts back what it has interrupted. */
QUICK void end_newest(struct runs *r, struct call call) {
    struct interrupted *i = &r->interrupted[r->depth - 1];
    if (LIKELY(i->frame && !i->is_continuation)) {
        if (UNLIKELY(self.thread))
            end_thread_of_run(call);
        self.current = i->current;
        if (UNLIKELY(i->current.inside_frame))
            forget_epoch();
    }
    i->frame = 0;
    i->current.thread = NULL;
    __atomic_signal_fence(__ATOMIC_SEQ_CST);
    r->depth--;
}

/* Runs that were left in a way that isn't seen: their stack is that of this one now. */
static void drop_left(struct runs *r, uintptr_t frame, bool is_own_stack, struct call call) {
    while (r->depth && r->interrupted[r->depth - 1].frame && r->interrupted[r->depth - 1].frame <= frame &&
           r->interrupted[r->depth - 1].is_on_own_stack == is_own_stack)
        end_newest(r, call);
}

#define STUB_BYTES 16

/* A run of a handler. */
struct run {
    const ucontext_t *context;
    uint64_t known_mask; /* before it */
    uint32_t level;      /* so many runs are below it */
    bool is_begun, is_continuation, was_waiting, is_at_edge, was_unknown, has_returned;
};

#ifdef __x86_64__
#define INTERRUPTED_AT(context) ((uintptr_t)(context)->uc_mcontext.gregs[REG_RIP])
#else
#define INTERRUPTED_AT(context) 0
#endif

/* Whether another run was interrupted where it begins or ends, or another call of the recorder: what is known of the mask is about to be changed
   there, and was changed already. */
static bool is_at_edge(const struct run *r, struct call call) {
    uintptr_t at = INTERRUPTED_AT(r->context);
    const struct module *own = known_module((uintptr_t)is_at_edge);
    return own && ((at >= own->from && at < own->to) || at - call.caller < STUB_BYTES);
}

QUICK uint64_t mask_of(const struct run *r) { return *(const uint64_t *)&r->context->uc_sigmask; }

/* While a call waits with another mask, what is in the context is what comes back after it. */
__attribute__((noinline)) static void begin_with_other_mask(struct run *r, struct call call) {
    r->was_unknown = !self.is_mask_known;
    r->is_at_edge = (r->was_unknown || self.mask != mask_of(r)) && !r->was_waiting && is_at_edge(r, call);
    bool is_unknown = (self.mask ^ mask_of(r)) & LOAD(&handled) && self.is_mask_known && !r->was_waiting && !r->is_at_edge;
    if (UNLIKELY(is_unknown) && !self.is_changing_mask)
        ADD(&arena->unknown_masks, 1);
    self.mask = r->was_waiting ? self.waiting_mask : mask_of(r);
    self.is_mask_known = true;
}

QUICK void begin_mask(struct run *r, const struct action *a, struct call call) {
    r->known_mask = self.mask;
    if (UNLIKELY(r->known_mask != mask_of(r) || !self.is_mask_known || r->was_waiting))
        begin_with_other_mask(r, call);
    self.mask |= a->blocks;
}

/* What most runs have nothing of. False if there is no room. */
__attribute__((noinline)) static bool begin_odd_run(struct run *r, const struct action *a, const siginfo_t *info, bool is_on_own,
                                                    struct call call) {
    struct runs *all = self.runs;
    drop_left(all, call.frame, is_on_own, call);
    r->was_waiting = self.waiting_level == all->depth + 1 && !is_at_edge(r, call);
    if (all->depth == MOST_RUNS)
        return false;
    if (a->flags & SA_RESETHAND && installed_source(a->number) == a->source)
        install(a->number, 0);
    r->is_continuation = may_be_continuation(a->number) && is_continuation(a->number, info);
    return true;
}

/* What is kept is there before anything of it is changed: a signal may come in between, and its handler may jump. */
QUICK void keep(struct interrupted *i, uint32_t source, bool is_on_own, struct call call) {
    i->frame = 0;
    __atomic_signal_fence(__ATOMIC_SEQ_CST);
    self.runs->depth++;
    __atomic_signal_fence(__ATOMIC_SEQ_CST);
    i->current = self.current;
    i->source = source;
    i->is_continuation = false;
    i->is_on_own_stack = is_on_own;
    i->is_of_parent = false;
    __atomic_signal_fence(__ATOMIC_SEQ_CST);
    i->frame = call.frame;
    __atomic_signal_fence(__ATOMIC_SEQ_CST);
    self.current = (struct current){.thread = NULL};
    if (UNLIKELY(i->current.inside_frame))
        forget_chunk();
}

/* One that goes on with what it has interrupted. */
__attribute__((noinline)) static void keep_call(struct run *r, const struct action *a, bool is_on_own, struct call call) {
    struct runs *all = self.runs;
    struct interrupted *i = &all->interrupted[r->level];
    uint32_t below = run_source();
    bool is_of_parent = is_run_of_parent();
    i->frame = 0;
    __atomic_signal_fence(__ATOMIC_SEQ_CST);
    all->depth++;
    __atomic_signal_fence(__ATOMIC_SEQ_CST);
    i->current.thread = NULL;
    i->source = below;
    i->is_continuation = true;
    i->is_on_own_stack = is_on_own;
    i->is_of_parent = is_of_parent;
    __atomic_signal_fence(__ATOMIC_SEQ_CST);
    i->frame = call.frame;
    __atomic_signal_fence(__ATOMIC_SEQ_CST);
    begin_mask(r, a, call);
    r->is_begun = true;
    ADD(&((struct raw_source *)part_of(RAW_SOURCES, a->source))->continued, 1);
    look_at_state_later();
}

__attribute__((noinline)) static void go_on_as(struct thread *t) {
    self.thread = t;
    look_at_state_later();
}

QUICK void begin_run(struct run *r, const struct action *a, const siginfo_t *info, struct call call) {
    struct runs *all = LIKELY(self.runs) ? self.runs : make_runs();
    if (UNLIKELY(!all))
        return;
    bool is_on_own = is_on_own_stack(call.frame, &r->context->uc_stack);
    if (UNLIKELY(all->depth | self.waiting_level | a->is_odd) && !begin_odd_run(r, a, info, is_on_own, call))
        return;
    r->level = all->depth;
    if (UNLIKELY(r->is_continuation)) {
        keep_call(r, a, is_on_own, call);
        return;
    }
    r->is_begun = true;
    keep(&all->interrupted[r->level], a->source, is_on_own, call);
    begin_mask(r, a, call);
    count_run(all, a->number, a->source, info);
    struct thread *t = UNLIKELY(all->threads) ? idle_run(all, a->source) : NULL;
    if (UNLIKELY(t))
        go_on_as(t);
}

__attribute__((noinline)) static void look_at_state_after_run(bool has_returned) {
    if (!has_returned)
        self.is_changing_mask = false;
    look_at_state_later();
}

/* Also if the handler throws, or the thread ends in it. One that was left by a jump was ended then. The system puts back the mask that the
   context has, and a call that waits with another one is over. If handlers were installed, the era is another one. */
QUICK void end_this_run(struct run *r, struct call call) {
    struct runs *all = self.runs;
    bool is_changed = self.thread || !r->has_returned || r->is_continuation;
    while (r->is_begun && all && all->depth > r->level)
        end_newest(all, call);
    if (r->has_returned)
        self.mask = UNLIKELY(r->is_at_edge) ? r->known_mask : mask_of(r);
    if (UNLIKELY(r->is_at_edge & r->has_returned & r->was_unknown))
        self.is_mask_known = false;
    if (UNLIKELY(r->was_waiting))
        self.waiting_level = 0;
    if (UNLIKELY(LOAD(&are_timers_untold)) && r->has_returned)
        tell_timers();
    if (UNLIKELY(is_changed || self.mask != r->known_mask))
        look_at_state_after_run(r->has_returned);
}

QUICK void leave_run(struct run *r) { end_this_run(r, HERE); }

__attribute__((used, visibility("hidden"), noinline)) void lockdep_run(int number, siginfo_t *info, void *context, uint32_t stub) {
    const struct action *a = &actions[stub];
    void (*handler)(int, siginfo_t *, void *) = (void (*)(int, siginfo_t *, void *))LOAD(&a->handler);
    struct run r __attribute__((cleanup(leave_run))) = {.context = context};
    if (LIKELY(a->source && !self.is_ended && (*era || revived())))
        begin_run(&r, a, info, HERE);
    handler(number, info, context);
    r.has_returned = true;
}

/* ---- The stubs. Each puts its number where the function above looks for it, and goes there. */

#ifdef __x86_64__
__attribute__((naked, used, aligned(64))) static void stubs(void) {
    __asm__(".set lockdep_stub, 0\n\t"
            ".rept 512\n\t"
            ".balign 16\n\t"
            "endbr64\n\t"
            "movl $lockdep_stub, %ecx\n\t"
            "jmp lockdep_run\n\t"
            ".set lockdep_stub, lockdep_stub + 1\n\t"
            ".endr\n\t"
            ".balign 16");
}

static uintptr_t first_stub(void) { return (uintptr_t)stubs; }

uintptr_t stub_numbered(uint32_t n) { return first_stub() + (uintptr_t)n * STUB_BYTES; }

int number_of_stub(uintptr_t address) {
    uintptr_t from = address - first_stub();
    return from < (uintptr_t)MOST_STUBS * STUB_BYTES && from % STUB_BYTES == 0 ? (int)(from / STUB_BYTES) : -1;
}

#else

#define S1(n) static void stub_##n(int s, siginfo_t *i, void *c) { lockdep_run(s, i, c, 0x##n); }
#define S4(n) S1(n##0) S1(n##1) S1(n##2) S1(n##3) S1(n##4) S1(n##5) S1(n##6) S1(n##7) S1(n##8) S1(n##9) S1(n##a) S1(n##b) S1(n##c) S1(n##d) S1(n##e) S1(n##f)
#define N4(n) stub_##n##0, stub_##n##1, stub_##n##2, stub_##n##3, stub_##n##4, stub_##n##5, stub_##n##6, stub_##n##7, stub_##n##8, stub_##n##9, stub_##n##a, stub_##n##b, stub_##n##c, stub_##n##d, stub_##n##e, stub_##n##f,
S4(0) S4(1) S4(2) S4(3)
static void (*const stubs[])(int, siginfo_t *, void *) = {N4(0) N4(1) N4(2) N4(3)};

uintptr_t stub_numbered(uint32_t n) { return n < sizeof stubs / sizeof *stubs ? (uintptr_t)stubs[n] : 0; }

int number_of_stub(uintptr_t address) {
    for (size_t i = 0; i < sizeof stubs / sizeof *stubs; i++)
        if ((uintptr_t)stubs[i] == address)
            return (int)i;
    return -1;
}

#endif

/* ---- Jumps out of handlers. The mask that comes back lies in the buffer, if it was saved, and so does the stack's new end. */

static void leave_to(uintptr_t sp, struct call call) {
    struct runs *r = self.runs;
    stack_t own = {.ss_flags = SS_DISABLE};
    if (!r || !r->depth || !sp)
        return;
    SYSTEM(sigaltstack, NULL, &own);
    bool to_own = is_on_own_stack(sp, &own);
    while (r->depth) {
        const struct interrupted *i = &r->interrupted[r->depth - 1];
        if (i->frame > sp && i->is_on_own_stack == to_own)
            break;
        end_newest(r, call);
    }
    if (self.waiting_level == r->depth + 1)
        self.waiting_level = 0;
    self.is_changing_mask = false;
}

#ifdef __x86_64__

#define STACK_OF(context) ((uintptr_t)(context)->uc_mcontext.gregs[REG_RSP])

/* The C library has it mangled. */
static uintptr_t target_of(const struct __jmp_buf_tag *to) {
    uintptr_t sp = (uintptr_t)to->__jmpbuf[6];
    __asm__("ror $17, %0\n\txor %%fs:0x30, %0" : "+r"(sp));
    return sp;
}

#else

/* It isn't known: what was left is noticed when the next handler runs. */
#define STACK_OF(context) 0
static uintptr_t target_of(const struct __jmp_buf_tag *to) {
    (void)to;
    return 0;
}

#endif

void leave_for(const ucontext_t *to, struct call call) {
    leave_to(STACK_OF(to), call);
    set_mask(*(const uint64_t *)&to->uc_sigmask, call);
    look_at_state_later();
}

/* The C library puts the mask back itself, a moment later: a signal that comes in between would meet another one than is known. */
static void put_mask_back(uint64_t mask, struct call call) {
    bool is_other = ((self.mask ^ mask) & LOAD(&handled)) != 0;
    self.is_changing_mask |= is_other;
    set_mask(mask, call);
    if (!is_other)
        return;
    SYSTEM(rt_sigprocmask, SIG_SETMASK, &mask, NULL, sizeof mask);
    self.is_changing_mask = false;
}

static void before_jump(const struct __jmp_buf_tag *to, struct call call) {
    leave_to(target_of(to), call);
    if (to->__mask_was_saved)
        put_mask_back(*(const uint64_t *)&to->__saved_mask, call);
    look_at_state_later();
}

#define JUMPING(name)                                                                                                  \
    EXPORT void __attribute__((noreturn)) name(struct __jmp_buf_tag to[1], int value) {                                \
        if (is_following())                                                                                            \
            before_jump(to, HERE);                                                                                     \
        REAL(name)(to, value);                                                                                         \
        __builtin_unreachable();                                                                                       \
    }
JUMPING(longjmp)
JUMPING(_longjmp)
JUMPING(siglongjmp)
JUMPING(__longjmp_chk)
