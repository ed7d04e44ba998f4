/* Locks that a process's traces have, and of which its history has no step: those of calls that aren't noted there, as semaphores, streams, files and the
   loader's lock. Of a history that ends before its process nothing is said. */
#include "history.h"

#include <string.h>

static bool has_ended_early(const struct history *h) {
    return ((const struct raw_process *)part_of(h->arena, RAW_PROCESSES, h->process))->history_end != 0;
}

static bool is_in_history(const struct history *h, uint32_t object) {
    uint32_t number = value_of(&h->locks.by_object, object);
    return number && h->locks.locks[number - 1].is_used;
}

/* Several locks may have one name. */
static void add_absent(struct history *h, int key) {
    for (size_t i = 0; i < h->absent_count; i++)
        if (h->absent[i] == key)
            return;
    PUSH(h->absent, h->absent_count, key);
}

static void add_absent_of(struct history *h, const struct raw_thread *t, bool *is_known) {
    for (uint64_t i = 0; i < t->count; i++) {
        const struct raw_record *r = record_of(h->arena, t, i);
        uint32_t object = r ? raw_object(r->what) : 0, itself = object ? object_itself(h->arena, object) : 0;
        if (!object || is_known[object])
            continue;
        is_known[object] = true;
        if (!is_in_history(h, object) && !is_in_history(h, itself) && !is_left_out(h->arena, object))
            add_absent(h, key_of_object(h->arena, h->process, object));
    }
}

void find_absent(struct history *h) {
    if (has_ended_early(h))
        return;
    bool *is_known = checked(calloc(count_of(h->arena, RAW_OBJECTS) + 1, sizeof *is_known));
    for (uint32_t n = 1; n <= count_of(h->arena, RAW_THREADS); n++) {
        const struct raw_thread *t = part_of(h->arena, RAW_THREADS, n);
        if (t->is_ready && t->process == h->process)
            add_absent_of(h, t, is_known);
    }
    free(is_known);
}
