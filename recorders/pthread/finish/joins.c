/* Threads that are waited for. Each is a lock, which is written only if it can be part of a cycle: if the thread is joined with a lock held, by a
   thread of which that is true, or by a signal's handler, and if it takes a lock itself, or joins a thread that does. */
#include "finish.h"

enum { REACHED = 1, USEFUL = 2, KEPT = REACHED | USEFUL };

bool is_thread(const struct arena *a, uint32_t object) {
    const struct raw_class *class = part_of(a, RAW_CLASSES, class_of(a, object));
    return class && class->kind == CLASS_RUN;
}

bool is_thread_left_out(const struct arena *a, uint32_t object) {
    return is_thread(a, object) && (!a->threads || (a->threads[object] & KEPT) != KEPT);
}

/* The object that the thread holds all its life; 0 if that isn't written. */
uint32_t own_object(const struct arena *a, const struct raw_thread *t) {
    return t->joined && is_thread(a, t->joined) && !is_thread_left_out(a, t->joined) ? t->joined : 0;
}

/* Where such a thread began: its function, as if that was called from its first byte, or where it was started. */
const struct place *start_of(struct arena *a, uint32_t object, struct place *room) {
    const struct raw_class *class = part_of(a, RAW_CLASSES, class_of(a, object));
    *room = (struct place){.count = 1, .words = {global_word(a, class->word) + 1}};
    return class->word ? room : place_numbered(a, class->place);
}

static bool add(uint8_t *flags, uint8_t new) {
    bool is_new = (*flags & new) != new;
    *flags |= new;
    return is_new;
}

/* What a thread's records say of itself and of those that it joins. Returns whether that is news. */
static bool go_through(struct arena *a, const struct raw_thread *t) {
    uint8_t none = 0, *own = t->joined && is_thread(a, t->joined) ? &a->threads[t->joined] : &none;
    int64_t held = *own & REACHED || t->source ? 1 : 0;
    bool is_news = false;
    for (uint64_t i = 0; i < t->count; i++) {
        const struct raw_record *r = record_of(a, t, i);
        if (!r || is_signal(a, raw_object(r->what)))
            continue;
        bool is_release = raw_mode(r->what) == MODE_RELEASE, is_join = is_thread(a, raw_object(r->what));
        uint8_t *joined = is_join ? &a->threads[raw_object(r->what)] : NULL;
        if (!is_join || *joined & USEFUL)
            is_news |= own != &none && add(own, USEFUL);
        if (is_join && !is_release && held > 0)
            is_news |= add(joined, REACHED);
        if (!is_join)
            held += is_release ? -1 : 1;
    }
    return is_news;
}

static bool go_through_all(struct arena *a) {
    bool is_news = false;
    for (uint32_t n = 1; n <= count_of(a, RAW_THREADS); n++)
        is_news |= go_through(a, part_of(a, RAW_THREADS, n));
    return is_news;
}

static bool has_joins(const struct arena *a) {
    for (uint32_t n = 1; n <= count_of(a, RAW_THREADS); n++)
        if (((const struct raw_thread *)part_of(a, RAW_THREADS, n))->joined)
            return true;
    return false;
}

void find_joins(void) {
    for (size_t i = 0; i < arena_count; i++) {
        if (!has_joins(&arenas[i]))
            continue;
        arenas[i].threads = checked(calloc(count_of(&arenas[i], RAW_OBJECTS) + 1, 1));
        while (go_through_all(&arenas[i]))
            continue;
    }
}

/* The thread that waits and has this object, or NULL. */
static const struct raw_thread *waiting(const struct arena *a, uint32_t object) {
    for (uint32_t n = 1; n <= count_of(a, RAW_THREADS); n++) {
        const struct raw_thread *t = part_of(a, RAW_THREADS, n);
        if (t->joined == object && waits_for_ever(t) && !t->ended)
            return t;
    }
    return NULL;
}

/* Whether it is a thread that goes on, or waits for the end of one that does: who waits for its end may only have to wait for a while. */
bool is_going_on(const struct arena *a, uint32_t object) {
    for (uint32_t n = 0; is_thread(a, object) && n <= count_of(a, RAW_THREADS); n++) {
        const struct raw_thread *t = waiting(a, object);
        const struct raw_record *last = t ? record_of(a, t, t->count - 1) : NULL;
        if (!last)
            return true;
        object = raw_object(last->what);
    }
    return false;
}
