/* A thread's records, the locks that it holds, and the ways in which it took them. */
#include "records.h"

/* ---- Records. */

static bool make_chunk(struct thread *t, uint32_t chunk) {
    t->chunks[chunk] = take_chunk(chunk);
    if (!t->chunks[chunk])
        return false;
    t->raw->chunks[chunk] = (uint64_t)((char *)t->chunks[chunk] - (char *)arena);
    return true;
}

/* Finds the chunk for the next record. Of the last one no more is used for steps than they may write. */
__attribute__((noinline)) bool change_chunk(struct thread *t) {
    uint32_t chunk = raw_chunk(t->raw->count);
    if (chunk >= RAW_CHUNKS || (!t->chunks[chunk] && !make_chunk(t, chunk)))
        return false;
    t->records = t->chunks[chunk];
    t->records_from = raw_chunk_start(chunk);
    t->records_room = raw_chunk_room(chunk);
    if (t->records_from + t->records_room > RAW_LIMIT)
        t->records_room = RAW_LIMIT - t->records_from;
    return true;
}

/* ---- What is held, and the ways in which a lock was taken. */

uint32_t newest_of(const struct thread *t, enum reader reader, uint32_t number) {
    for (uint32_t i = t->depth; i-- > 0;)
        if (raw_object(t->entries[i].links.what[reader]) == number)
            return i;
    return RAW_HELD;
}

void pop_links(struct thread *t, const struct held *gone) {
    uint32_t first = t->depth;
    for (enum reader reader = 0; reader < READERS; reader++) {
        uint32_t from = newest_of(t, reader, raw_object(gone->what[reader]));
        for (uint32_t i = from; i + 1 < t->depth; i++)
            t->entries[i].links.what[reader] = t->entries[i + 1].links.what[reader];
        first = from < first ? from : first;
    }
    rehash(t, first, t->depth - 1);
}

/* The newest held entry of a lock, or RAW_HELD. */
uint32_t find_held(const struct thread *t, uintptr_t lock) {
    for (uint32_t i = t->depth; i-- > 0;)
        if (t->entries[i].held.lock == lock)
            return i;
    return RAW_HELD;
}

static void put_seen(uint64_t *seen, size_t mask, uint64_t way) {
    size_t i = way >> 1 & mask;
    while (seen[i])
        i = (i + 1) & mask;
    seen[i] = way;
}

#define FIRST_SEEN 32

static bool grow_seen(struct thread *t) {
    size_t size = t->seen ? 2 * (t->seen_mask + 1) : FIRST_SEEN;
    uint64_t *seen = take_private(size * sizeof *seen);
    if (!seen)
        return false;
    for (size_t i = 0; t->seen && i <= t->seen_mask; i++)
        if (t->seen[i])
            put_seen(seen, size - 1, t->seen[i]);
    t->seen = seen;
    t->seen_mask = size - 1;
    return true;
}

bool is_seen(const struct thread *t, uint64_t way) {
    if (t->seen)
        for (size_t i = way >> 1 & t->seen_mask; t->seen[i]; i = (i + 1) & t->seen_mask)
            if (t->seen[i] == way)
                return true;
    return false;
}

/* The way in which the newest of so many locks was taken. A weak acquisition is none if the lock was taken so otherwise. */
uint64_t way_at(const struct thread *t, uint32_t depth) {
    uint64_t hash = hash_of(t, depth), weak = (&t->entries[depth] - 1)->held.weak;
    return way_of(weak && !is_seen(t, way_of(hash)) ? hash + weak : hash);
}

/* Whether the way is new. It isn't any more. */
bool see(struct thread *t, uint64_t way) {
    if (is_seen(t, way))
        return false;
    if (!t->seen || 2 * (t->seen_used + 1) > t->seen_mask)
        if (!grow_seen(t))
            return true;
    put_seen(t->seen, t->seen_mask, way);
    t->seen_used++;
    return true;
}

uint32_t cached_place(struct thread *t, uintptr_t caller) {
    uint32_t i = (uint32_t)(caller ^ caller >> 5) % PLACES, epoch = LOAD(&rules_epoch);
    if (LIKELY(t->places[i].caller == caller && t->places[i].epoch == epoch))
        return t->places[i].place;
    uint32_t place = place_of_caller(caller);
    if (place) {
        t->places[i].caller = caller;
        t->places[i].epoch = epoch;
        t->places[i].place = place;
    }
    return place;
}

/* ---- What is asked about what this thread holds. */

/* Whether this thread holds the lock, and a single release gives it back. */
bool is_held_once(uintptr_t lock) {
    uint32_t i = self.thread ? find_held(self.thread, lock) : RAW_HELD;
    return i != RAW_HELD && self.thread->entries[i].held.depth == 0;
}

bool has_trace(void) { return self.thread != NULL; }

bool is_any_held(void) { return self.thread && self.thread->depth; }

/* Whether this thread holds the lock, as far as that is known. */
bool may_hold(uintptr_t lock) { return self.thread->unnoted || find_held(self.thread, lock) != RAW_HELD; }

uint32_t held_object(uintptr_t lock) {
    struct thread *t = self.thread;
    uint32_t i = t ? find_held(t, lock) : RAW_HELD;
    return i == RAW_HELD ? 0 : object_of(&t->entries[i].held);
}

bool nth_held(uint32_t n, struct held_lock *held) {
    struct thread *t = self.thread;
    if (n >= t->depth)
        return false;
    const struct held *h = &t->entries[t->depth - 1 - n].held;
    *held = (struct held_lock){h->lock, object_of(h), h->is_written ? record_at(t, h->record)->place : 0};
    return true;
}
