/* Arrays: a piece of memory may hold many like objects, or one with several locks. The locks of all elements are one class, for each of
   an element's locks; those of one object are classes of their own.

   A piece is an array if it was asked for as one: by calloc of several, by `new[]`, or by a vector or deque. Else locks of it that one
   call takes, known by three callers, at distances that are multiples of one of at least a mutex's size are an array in it: what is
   written out in a program as two locks is taken by two calls. Of what was asked for as one object these are to be three locks at
   least. Else it is an array if locks lie at one distance eight times. */
#include "finish.h"

#include <string.h>

/* A lock's offset in what one place allocates, and who takes it. */
struct taking {
    uint64_t site, taker, at;
};

struct site {
    uint64_t site;
    bool is_array, is_object; /* what was asked for, if that is known */
    uint64_t distance; /* of all locks; 0: it has parts that are arrays */
    uint64_t head;     /* what stands before the first element */
    uint64_t bytes, steps; /* the sizes of its pieces, as in raw_place */
    size_t from, to;   /* its parts */
};

/* The locks at `first`, `first + distance` and so on up to `last`. */
struct part {
    uint64_t first, last, distance;
    uint64_t member; /* where in an element its locks are, or where it begins if another part has them there too */
};

static struct taking *offsets, *takings; /* the offsets have no taker */
static struct site *sites;
static struct part *parts;
static size_t offset_count, taking_count, site_count, part_count;

#define TAKER_FRAMES 3

/* A number that is made of so many callers. */
static uint64_t number_of(const struct place *place, uint32_t most) {
    uint64_t number = 1 + (uint64_t)place->maker;
    for (uint32_t i = 0; i < place->count && i < most; i++)
        number = (number ^ place->words[i]) * UINT64_C(0x9e3779b97f4a7c15) + (number >> 29);
    return number;
}

static uint64_t site_of(const struct place *place) { return number_of(place, (uint32_t)frames); }

/* ---- All offsets. */

static uint64_t element_at(struct arena *a, uint32_t place) {
    const struct raw_place *raw = part_of(a, RAW_PLACES, place);
    return raw && raw->element > RAW_MAPPED ? raw->element : 0;
}

/* Whether it isn't known yet what element the class's locks are in. */
static bool is_open(struct arena *a, const struct raw_class *class) {
    return class && class->kind == CLASS_HEAP && !element_at(a, class->place);
}

static void collect(struct arena *a) {
    for (uint32_t n = 1; n <= count_of(a, RAW_CLASSES); n++) {
        const struct raw_class *class = part_of(a, RAW_CLASSES, n);
        if (!is_open(a, class))
            continue;
        struct taking t = {site_of(place_numbered(a, class->place)), 0, class->offset};
        PUSH(offsets, offset_count, t);
    }
    for (uint32_t n = 1; n <= count_of(a, RAW_TAKES); n++) {
        const struct raw_take *take = part_of(a, RAW_TAKES, n);
        const struct raw_class *class = part_of(a, RAW_CLASSES, take->class);
        if (!is_open(a, class))
            continue;
        struct taking t = {site_of(place_numbered(a, class->place)), number_of(place_numbered(a, take->place), TAKER_FRAMES),
                           class->offset};
        PUSH(takings, taking_count, t);
    }
}

static int by_site(const void *a, const void *b) {
    const struct taking *x = a, *y = b;
    if (x->site != y->site)
        return x->site < y->site ? -1 : 1;
    if (x->taker != y->taker)
        return x->taker < y->taker ? -1 : 1;
    return x->at < y->at ? -1 : x->at > y->at;
}

static size_t in_order(struct taking *list, size_t count) {
    size_t kept = 0;
    if (count)
        qsort(list, count, sizeof *list, by_site);
    for (size_t i = 0; i < count; i++)
        if (i == 0 || by_site(&list[i], &list[i - 1]) != 0)
            list[kept++] = list[i];
    return kept;
}

/* ---- The distance of one site's offsets, which are in order and differ. */

#define MUTEX_BYTES 40
#define FEWEST_ELEMENTS 8 /* if nothing else tells an array */
#define TRIED 24          /* distances between so many of the first offsets are tried */
#define LOOKED_AT 512     /* so many of the offsets are gone through: enough to see an array */

/* The bytes of the smallest lock. */
static uint64_t lock_bytes(const struct taking *o, size_t count) {
    uint64_t least = MUTEX_BYTES;
    for (size_t i = 1; i < count; i++)
        least = o[i].at - o[i - 1].at < least ? o[i].at - o[i - 1].at : least;
    return least;
}

static int by_number(const void *a, const void *b) {
    uint64_t x = *(const uint64_t *)a, y = *(const uint64_t *)b;
    return x < y ? -1 : x > y;
}

/* How many locks an element of this size has; SIZE_MAX if some of them would overlap. */
static size_t count_of_rests(const struct taking *o, size_t count, uint64_t distance, uint64_t bytes) {
    static uint64_t rests[LOOKED_AT];
    size_t kept = 0;
    for (size_t i = 0; i < count; i++)
        rests[i] = o[i].at % distance;
    qsort(rests, count, sizeof *rests, by_number);
    for (size_t i = 0; i < count; i++) {
        if (i && rests[i] == rests[kept - 1])
            continue;
        if (i && rests[i] - rests[kept - 1] < bytes)
            return SIZE_MAX;
        rests[kept++] = rests[i];
    }
    return rests[0] + distance - rests[kept - 1] < bytes ? SIZE_MAX : kept;
}

/* The distance that leaves the fewest locks of an element, each of which is there so often; 0 if there is none. */
static uint64_t distance_by_rests(const struct taking *o, size_t count, size_t least) {
    uint64_t best = 0, bytes = lock_bytes(o, count);
    size_t fewest = count;
    count = count < LOOKED_AT ? count : LOOKED_AT;
    for (size_t i = 0; i < count && i < TRIED; i++)
        for (size_t k = i + 1; k < count && k < TRIED; k++) {
            uint64_t distance = o[k].at - o[i].at;
            size_t rests = distance < bytes ? SIZE_MAX : count_of_rests(o, count, distance, bytes);
            if (rests <= count / least && (rests < fewest || (rests == fewest && best && distance < best))) {
                fewest = rests;
                best = distance;
            }
        }
    return best;
}

/* ---- What the takers tell. */

static uint64_t common_part(uint64_t a, uint64_t b) {
    while (b) {
        uint64_t rest = a % b;
        a = b;
        b = rest;
    }
    return a;
}

/* The next taker's offsets, and what all their distances are multiples of: 0 of a single one. */
static size_t next_taker(const struct taking *t, size_t count, uint64_t *distance) {
    size_t n = 1;
    *distance = 0;
    for (; n < count && t[n].taker == t->taker; n++)
        *distance = common_part(t[n].at - t[0].at, *distance);
    return n;
}

static uint64_t distance_by_takers(const struct taking *t, size_t count) {
    uint64_t all = 0, one;
    for (size_t i = 0, n; i < count; i += n) {
        n = next_taker(&t[i], count - i, &one);
        all = common_part(one, all);
    }
    return all;
}

/* Adds the locks of a taker to those of the site's parts that go on with them. */
static void add_part(struct site *s, struct part new) {
    for (size_t i = s->from; i < part_count; i++) {
        struct part *p = &parts[i];
        uint64_t between = p->first < new.first ? new.first - p->first : p->first - new.first;
        uint64_t distance = common_part(p->distance, new.distance);
        if (new.first > p->last || new.last < p->first || between % distance != 0 || distance < MUTEX_BYTES)
            continue;
        new = (struct part){p->first < new.first ? p->first : new.first, p->last > new.last ? p->last : new.last, distance, 0};
        *p = parts[--part_count];
        i = s->from - 1;
    }
    PUSH(parts, part_count, new);
}

static int by_first(const void *a, const void *b) {
    const struct part *x = a, *y = b;
    return x->first != y->first ? (x->first < y->first ? -1 : 1) : x->last < y->last ? -1 : x->last > y->last;
}

/* Whether the elements of a part fill the memory, as those of an array that was asked for do. */
static bool is_filled(const struct site *s, const struct part *p) {
    return !s->is_object && s->bytes && s->bytes % p->distance == 0 && s->steps % p->distance == 0;
}

/* A part is named by where its locks are in an element. If another has the same name, the two are one array of which each is taken by
   other calls, if it fills the memory; else they are two, and the second one is named by where it begins. */
static void tell_parts(const struct site *s, struct part *p, size_t count) {
    if (count)
        qsort(p, count, sizeof *p, by_first);
    for (size_t i = 0; i < count; i++) {
        p[i].member = p[i].first % p[i].distance;
        for (size_t k = 0; k < i; k++)
            if (p[k].member == p[i].member && !(p[k].distance == p[i].distance && is_filled(s, &p[i])))
                p[i].member = p[i].first;
    }
}

static void find_parts(struct site *s, const struct taking *t, size_t count) {
    s->from = part_count;
    for (size_t i = 0, n; i < count; i += n) {
        uint64_t distance;
        n = next_taker(&t[i], count - i, &distance);
        if (distance >= MUTEX_BYTES && n >= (s->is_object ? 3 : 2))
            add_part(s, (struct part){t[i].at, t[i + n - 1].at, distance, 0});
    }
    s->to = part_count;
    tell_parts(s, parts + s->from, s->to - s->from);
}

/* ---- All sites. */

/* What an array's element may begin after: nothing, or how many there are, in as many bytes as elements are aligned to. */
static const uint64_t heads[] = {0, 8, 16, 32, 64};

#define LARGEST_ELEMENT (UINT64_C(1) << 20)
#define GRAIN 4 /* of sizes */

/* The element of an array: its size divides that of all pieces, and the distances between what one taker takes. Of several sizes it is
   the one that has the fewest locks; by takers the largest, since no taker takes two locks of one element. */
static void find_element(struct site *s, const struct taking *o, size_t count, uint64_t by_takers) {
    uint64_t bytes = lock_bytes(o, count);
    size_t fewest = count + 1;
    count = count < LOOKED_AT ? count : LOOKED_AT;
    for (size_t h = 0; h < sizeof heads / sizeof *heads && o->at >= heads[h] && s->bytes > heads[h]; h++) {
        uint64_t all = common_part(common_part(s->bytes - heads[h], s->steps), by_takers);
        for (uint64_t d = (bytes + GRAIN - 1) / GRAIN * GRAIN; d <= all && d <= LARGEST_ELEMENT; d += GRAIN) {
            size_t rests = all % d == 0 ? count_of_rests(o, count, d, bytes) : SIZE_MAX;
            if (by_takers ? rests == SIZE_MAX : rests >= fewest)
                continue;
            fewest = rests;
            s->distance = d;
            s->head = heads[h];
        }
        if (by_takers && s->distance)
            return;
    }
}

/* Of a site with its offsets, and what is taken of it. */
static void decide(struct site *s, const struct taking *o, size_t count, const struct taking *t, size_t taken) {
    if (s->is_array) {
        find_element(s, o, count, distance_by_takers(t, taken));
        s->distance = s->distance ? s->distance : distance_by_rests(o, count, 1);
        s->distance = s->distance ? s->distance : UINT64_MAX;
        return;
    }
    find_parts(s, t, taken);
    if (s->from == s->to)
        s->distance = distance_by_rests(o, count, FEWEST_ELEMENTS);
}

static int compare_sites(const void *a, const void *b) {
    const struct site *x = a, *y = b;
    return x->site < y->site ? -1 : x->site > y->site;
}

static struct site *site_numbered(uint64_t number) {
    struct site wanted = {.site = number};
    return site_count ? bsearch(&wanted, sites, site_count, sizeof *sites, compare_sites) : NULL;
}

static void make_sites(void) {
    for (size_t i = 0; i < offset_count; i++)
        if (i == 0 || offsets[i].site != offsets[i - 1].site) {
            struct site s = {.site = offsets[i].site};
            PUSH(sites, site_count, s);
        }
}

static size_t offsets_from(const struct taking *list, size_t count, size_t from, uint64_t site) {
    while (from < count && list[from].site == site)
        from++;
    return from;
}

/* Goes through the classes of locks in memory that isn't known as an array yet, with their site. */
static void each_class(void (*visit)(struct arena *, uint32_t place, struct site *)) {
    for (size_t i = 0; i < arena_count; i++)
        for (uint32_t n = 1; n <= count_of(&arenas[i], RAW_CLASSES); n++) {
            const struct raw_class *class = part_of(&arenas[i], RAW_CLASSES, n);
            struct site *s = is_open(&arenas[i], class) ? site_numbered(site_of(place_numbered(&arenas[i], class->place))) : NULL;
            if (s)
                visit(&arenas[i], class->place, s);
        }
}

static void note_request(struct arena *a, uint32_t place, struct site *s) {
    enum request request = request_of(a, place);
    s->is_array |= request == ASKED_ARRAY;
    s->is_object |= request == ASKED_OBJECT;
}

static void note_sizes(struct arena *a, uint32_t place, struct site *s) {
    const struct raw_place *raw = part_of(a, RAW_PLACES, place);
    if (!s->bytes)
        s->bytes = raw->bytes;
    uint64_t differs = raw->bytes > s->bytes ? raw->bytes - s->bytes : s->bytes - raw->bytes;
    s->steps = common_part(common_part(s->steps, raw->steps), differs);
}

/* Only where there are several locks it matters what functions are inlined. */
static void ask(struct arena *a, uint32_t place, struct site *s) {
    if (s->to - s->from > 1 && request_of(a, place) == ASKED_UNKNOWN)
        ask_about(place_numbered(a, place));
}

void find_arrays(void) {
    for (size_t i = 0; i < arena_count; i++)
        collect(&arenas[i]);
    offset_count = in_order(offsets, offset_count);
    taking_count = in_order(takings, taking_count);
    make_sites();
    for (size_t i = 0, from = 0; i < site_count; i++, from = sites[i - 1].to) {
        sites[i].from = from;
        sites[i].to = offsets_from(offsets, offset_count, from, sites[i].site);
    }
    each_class(note_request);
    each_class(ask);
    ask_all();
    each_class(note_request);
    each_class(note_sizes);
    for (size_t i = 0, taken = 0; i < site_count; i++) {
        size_t from = sites[i].from, count = sites[i].to - from, first = taken;
        taken = offsets_from(takings, taking_count, first, sites[i].site);
        decide(&sites[i], &offsets[from], count, &takings[first], taken - first);
    }
}

/* ---- Where in an element a lock is. */

static bool in_part(const struct site *s, uint64_t at, uint64_t *member) {
    for (size_t i = s->from; i < s->to; i++)
        if (at >= parts[i].first && at <= parts[i].last && (at - parts[i].first) % parts[i].distance == 0) {
            *member = parts[i].member;
            return true;
        }
    for (size_t i = s->from; i < s->to; i++)
        if (at > parts[i].first && at < parts[i].last + parts[i].distance) {
            *member = at % parts[i].distance;
            return true;
        }
    return false;
}

/* Whether the class's locks are an array's, and where in an element they are. */
bool in_element(struct arena *a, const struct raw_class *class, uint64_t *member) {
    uint64_t element = element_at(a, class->place);
    const struct site *s = element ? NULL : site_numbered(site_of(place_numbered(a, class->place)));
    element = s ? s->distance : element;
    if (element)
        *member = s && s->head <= class->offset ? (class->offset - s->head) % element : class->offset % element;
    return element || (s && in_part(s, class->offset, member));
}
