/* What the files share that write a thread's records the long way.

   Each acquisition and release becomes a record in the file. A stretch of records that comes back to the locks that were held at its
   start, and takes nothing in a way in which this thread hadn't taken it before, is taken back: it adds no fact. Stacks are looked
   at only for what is new, and for what a function takes for its caller. */
#ifndef LOCKDEP_RECORDS_H
#define LOCKDEP_RECORDS_H
#include "held.h"

/* ---- threads.c */

struct thread *make_thread(void);

/* ---- inside.c */

struct thread *enter_unprepared(struct call call);
void settle_outside(struct thread *t);
void restore_after_jump(struct thread *t, struct call call);

/* Of the oldest so many that are held. */
static inline uint64_t hash_of(const struct thread *t, uint32_t depth) { return (&t->entries[depth] - 1)->links.hash; }

/* Enters the recorder. NULL if this call isn't to be recorded. */
static inline struct thread *enter(struct call call) {
    struct thread *t = self.thread;
    if (UNLIKELY(!t || !*era || self.inside_frame))
        return enter_unprepared(call);
    go_inside(call);
    return t;
}

static inline void leave(void) { end_inside(); }

/* ---- records.c */

bool change_chunk(struct thread *t);
uint32_t newest_of(const struct thread *t, enum reader reader, uint32_t number);
void pop_links(struct thread *t, const struct held *gone);
bool is_seen(const struct thread *t, uint64_t way);
uint64_t way_at(const struct thread *t, uint32_t depth);
bool see(struct thread *t, uint64_t way);
uint32_t cached_place(struct thread *t, uintptr_t caller);
uint32_t find_held(const struct thread *t, uintptr_t lock);

static inline struct raw_record *record_at(struct thread *t, uint64_t index) {
    uint32_t chunk = raw_chunk(index);
    return &t->chunks[chunk][index - raw_chunk_start(chunk)];
}

static inline bool make_room(struct thread *t) { return LIKELY(t->raw->count - t->records_from < t->records_room) || change_chunk(t); }

static inline void put_record(struct thread *t, uint32_t what, uint32_t place) {
    t->records[t->raw->count - t->records_from] = (struct raw_record){what, place};
    __atomic_signal_fence(__ATOMIC_RELEASE);
    t->raw->count++;
}

static inline uint64_t hash_with(uint64_t hash, uint32_t what) { return mixed(hash * UINT64_C(0x100000001b3) + what + 1); }

static inline void rehash(struct thread *t, uint32_t from, uint32_t depth) {
    for (struct entry *e = &t->entries[from]; e < &t->entries[depth]; e++) {
        for (enum reader reader = 0; reader < READERS; reader++)
            e->links.hashes[reader] = hash_with(e[-1].links.hashes[reader], e->links.what[reader]);
        e->links.hash = e->links.hashes[BY_OBJECTS] ^ mixed(e->links.hashes[BY_CLASSES]) ^ t->entries[-1].links.hash;
    }
}

static inline uint32_t object_of(const struct held *h) { return raw_object(h->what[BY_OBJECTS]); }
static inline enum mode mode_of(const struct held *h) { return raw_mode(h->what[BY_OBJECTS]); }
static inline uint8_t mode_with_weak(const struct held *h) { return (uint8_t)(mode_of(h) | h->weak); }
static inline uint32_t what_written(const struct held *h) { return h->what[BY_OBJECTS] | raw_what(0, h->weak); }

/* A way is never 0, and its low bits choose its place. */
static inline uint64_t way_of(uint64_t hash) { return mixed(hash) | 1; }

/* ---- state_records.c */

bool is_back(struct thread *t);
void turn(struct thread *t, struct call call);
void look_at_turn(struct thread *t, struct call call);

/* ---- releases.c */

extern struct names released_by_others;
uint32_t count_of(struct names *names, uintptr_t lock);
void release_at(struct thread *t, uint32_t i, uintptr_t caller);
bool is_released_by_other(const struct held *h);
void drop_released(struct thread *t, uintptr_t caller);
void end_loading(struct thread *t);
void end_what_is_left(struct thread *t, struct call call);

static inline uint32_t releases_so_far(uintptr_t lock) { return UNLIKELY(LOAD(&released_by_others.levels[0])) ? count_of(&released_by_others, lock) : 0; }

/* Ends what another thread has released meanwhile. */
static inline void look_at_others(struct thread *t, uintptr_t caller) {
    if (UNLIKELY(t->era != LOAD(era)))
        drop_released(t, caller);
}

static inline void settle(struct thread *t, struct call call) {
    if (UNLIKELY(t->loading.lock | t->pending.frame | t->watched.call.frame))
        end_what_is_left(t, call);
    look_at_others(t, call.caller);
    if (UNLIKELY(t->is_turned))
        look_at_turn(t, call);
}

/* The same before something is taken. */
static inline void settle_to_take(struct thread *t, struct call call) {
    settle(t, call);
    if (UNLIKELY(t->is_turned))
        turn(t, call);
}

/* ---- callers.c: how many callers tell where a lock is taken */

uint32_t place_of_acquisition(struct thread *t, struct call call, bool is_new);
void end_watch(struct thread *t, struct call call);

/* ---- acquisitions.c */

void push_held(struct thread *t, uintptr_t lock, uint32_t object, uint8_t mode, enum kind kind, struct call call, bool is_pending);
bool add_entries(struct thread *t);
uint32_t object_to_hold(struct thread *t, uintptr_t lock, uint8_t *mode, enum kind kind, struct call call);
bool is_stale(const struct held *h, uintptr_t lock, uint8_t mode);

/* The history has a hold as it begins and as it ends. A lock that was waited for is held only when it isn't pending any more. */
static inline void put_taking_of(struct thread *t, struct held *h, bool is_timed, uintptr_t caller) {
    if (!is_in_history((enum kind)h->kind) || !has_history())
        return;
    uint32_t place = h->is_written ? record_at(t, h->record)->place : cached_place(t, caller);
    h->taken_at = put_taking(h->lock, (uint8_t)(mode_of(h) | (is_timed ? RAW_TIMED : 0)), place, object_of(h));
}

static inline void put_end_of_hold(const struct held *h) {
    if (LIKELY(is_in_history((enum kind)h->kind)) && !h->is_pending)
        put_release(h->lock, object_of(h));
}

static inline bool has_entry_left(struct thread *t) { return LIKELY(t->depth < t->room) || add_entries(t); }

/* ---- pending.c */

void withdraw_all(struct thread *t, uintptr_t caller);
void end_left_pending(struct thread *t, struct call call);

#endif
