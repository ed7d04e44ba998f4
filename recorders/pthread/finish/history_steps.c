/* The steps of a process. Each chunk has steps of one thread whose times grow, so the next one of all is the earliest of the next ones of the chunks that
   have begun by then. */
#include "history.h"

#include <string.h>

struct cursor { /* of a chunk */
    const uint64_t *at, *end;
    uint64_t full;  /* the time that was written in full last */
    struct step next;
};

struct steps {
    const struct arena *arena;
    uint64_t until;
    struct cursor *chunks; /* by the times of their first words */
    size_t count, begun;
    size_t *heap; /* of those that have begun and have steps left, the earliest first */
    size_t heap_count;
};

/* ---- Chunks. */

static const uint64_t *words_at(const struct arena *a, uint64_t from, uint64_t count) {
    bool is_there = from <= a->bytes && count <= (a->bytes - from) / sizeof(uint64_t);
    return is_there ? (const uint64_t *)((const char *)a->raw + from) : NULL;
}

static uint64_t end_of_chunks(const struct arena *a) {
    uint64_t end = a->raw->history_used < a->raw->history_to ? a->raw->history_used : a->raw->history_to;
    return end < a->bytes ? end : a->bytes;
}

/* The words of a chunk, if it was begun. */
static const uint64_t *chunk_at(const struct arena *a, uint64_t from) {
    const uint64_t *words = words_at(a, from, RAW_STEP_WORDS);
    return words && raw_step_verb(words[1]) == STEP_CHUNK ? words : NULL;
}

static uint32_t process_of(const uint64_t *chunk) { return (uint32_t)chunk[0]; }

uint32_t processes_with_steps(const struct arena *a, bool *has_some) {
    uint32_t processes = count_of(a, RAW_PROCESSES), count = 0;
    for (uint64_t from = a->raw->history_from; from < end_of_chunks(a); from += RAW_STEP_CHUNK) {
        const uint64_t *words = chunk_at(a, from);
        uint32_t process = words ? process_of(words) : 0;
        if (!process || process > processes)
            continue;
        count += !has_some[process];
        has_some[process] = true;
    }
    return count;
}

/* ---- Words. */

/* The time whose low half this is. */
static uint64_t time_of(const struct cursor *c, uint64_t first) {
    return c->full + (uint64_t)(int64_t)(int32_t)((uint32_t)first - (uint32_t)c->full);
}

/* A step that takes a lock as another one did, or gives it back. */
static bool read_short(const struct steps *s, struct cursor *c, uint64_t first) {
    uint64_t from = s->arena->raw->history_from + raw_step_place(first) * sizeof(uint64_t);
    const uint64_t *taken = words_at(s->arena, from, 2);
    c->at++;
    if (!taken || raw_step_verb(taken[1]) != STEP_TAKE)
        return false;
    bool is_again = raw_step_form(first) == RAW_AGAIN;
    c->next.verb = is_again ? STEP_TAKE : STEP_RELEASE;
    c->next.mode = is_again ? raw_step_mode(taken[1]) : 0;
    c->next.about = raw_step_about(taken[1]);
    c->next.place = is_again ? raw_step_place(taken[0]) : 0;
    return true;
}

static bool read_long(struct cursor *c, uint64_t first) {
    uint64_t second = c->at[1];
    c->at += 2;
    c->next.verb = raw_step_verb(second);
    c->next.mode = raw_step_mode(second);
    c->next.about = raw_step_about(second);
    c->next.place = raw_step_place(first);
    if (c->next.verb == STEP_TIME || c->next.verb == STEP_CHUNK)
        c->full = raw_step_time(second);
    return c->next.verb > STEP_TIME && c->next.verb < STEP_VERBS;
}

/* The next step of a chunk. What a thread left unwritten is the last of it. */
static bool read_next(const struct steps *s, struct cursor *c) {
    while (c->at < c->end && (c->at[0] || (c->at + 1 < c->end && c->at[1]))) {
        uint64_t first = c->at[0];
        bool is_long = raw_step_form(first) == RAW_LONG;
        if (is_long && c->at + 1 == c->end)
            break;
        if (!(is_long ? read_long(c, first) : read_short(s, c, first)))
            continue;
        uint64_t time = time_of(c, first);
        if (time > c->next.time)
            c->next.time = time;
        return true;
    }
    return false;
}

/* ---- All of a process. */

static bool is_earlier(const struct steps *s, size_t a, size_t b) {
    const struct step *x = &s->chunks[a].next, *y = &s->chunks[b].next;
    return x->time != y->time ? x->time < y->time : a < b;
}

static void swap(size_t *a, size_t *b) {
    size_t c = *a;
    *a = *b;
    *b = c;
}

static void push(struct steps *s, size_t chunk) {
    size_t i = s->heap_count++;
    s->heap[i] = chunk;
    for (; i > 0 && is_earlier(s, s->heap[i], s->heap[(i - 1) / 2]); i = (i - 1) / 2)
        swap(&s->heap[i], &s->heap[(i - 1) / 2]);
}

static void sift(struct steps *s) {
    for (size_t i = 0;;) {
        size_t least = 2 * i + 1;
        if (least + 1 < s->heap_count && is_earlier(s, s->heap[least + 1], s->heap[least]))
            least++;
        if (least >= s->heap_count || !is_earlier(s, s->heap[least], s->heap[i]))
            return;
        swap(&s->heap[i], &s->heap[least]);
        i = least;
    }
}

static int by_time(const void *a, const void *b) {
    const struct cursor *x = a, *y = b;
    if (x->full != y->full)
        return x->full < y->full ? -1 : 1;
    return x->at < y->at ? -1 : x->at > y->at;
}

static void add_chunk(struct steps *s, const uint64_t *words) {
    struct cursor c = {.at = words + 2, .end = words + RAW_STEP_WORDS, .full = raw_step_time(words[1])};
    c.next.time = c.full;
    c.next.thread = raw_step_place(words[0]);
    PUSH(s->chunks, s->count, c);
}

struct steps *begin_steps(const struct arena *a, uint32_t process) {
    struct steps *s = checked(calloc(1, sizeof *s));
    const struct raw_process *raw = part_of(a, RAW_PROCESSES, process);
    s->arena = a;
    s->until = raw->history_end ? raw->history_end : UINT64_MAX;
    for (uint64_t from = a->raw->history_from; from < end_of_chunks(a); from += RAW_STEP_CHUNK) {
        const uint64_t *words = chunk_at(a, from);
        if (words && process_of(words) == process)
            add_chunk(s, words);
    }
    s->heap = checked(calloc(s->count + 1, sizeof *s->heap));
    if (s->count)
        qsort(s->chunks, s->count, sizeof *s->chunks, by_time);
    return s;
}

/* Those that have begun when the earliest of the others comes. */
static void begin_chunks(struct steps *s) {
    while (s->begun < s->count && (!s->heap_count || s->chunks[s->begun].full <= s->chunks[s->heap[0]].next.time)) {
        if (read_next(s, &s->chunks[s->begun]))
            push(s, s->begun);
        s->begun++;
    }
}

bool next_step(struct steps *s, struct step *step) {
    begin_chunks(s);
    if (!s->heap_count)
        return false;
    struct cursor *c = &s->chunks[s->heap[0]];
    *step = c->next;
    if (!read_next(s, c))
        s->heap[0] = s->heap[--s->heap_count];
    sift(s);
    return step->time < s->until;
}

void end_steps(struct steps *s) {
    free(s->chunks);
    free(s->heap);
    free(s);
}
