/* The source files of the programs, by their paths. Of several with one base name each gets as much of its folders in a name as tells it
   from the others. It doesn't depend on the order in which they are noted. */
#include "finish.h"

#include <string.h>

struct source {
    const char *base, *path;
};

static struct source *sources;
static size_t source_count;
static bool is_sorted;

static const char *base_of(const char *path) {
    const char *slash = strrchr(path, '/');
    return slash ? slash + 1 : path;
}

void note_source(const char *path) {
    char *copy = checked(strdup(path));
    struct source new = {base_of(copy), copy};
    PUSH(sources, source_count, new);
    is_sorted = false;
}

static int by_base_and_path(const void *a, const void *b) {
    const struct source *x = a, *y = b;
    int order = strcmp(x->base, y->base);
    return order ? order : strcmp(x->path, y->path);
}

static void sort_sources(void) {
    if (!is_sorted && source_count)
        qsort(sources, source_count, sizeof *sources, by_base_and_path);
    is_sorted = true;
}

static size_t first_of_base(const char *base) {
    size_t low = 0, high = source_count;
    while (low < high) {
        size_t middle = (low + high) / 2;
        if (strcmp(sources[middle].base, base) < 0)
            low = middle + 1;
        else
            high = middle;
    }
    return low;
}

/* The least end of the path that the other one hasn't: whole parts of it. */
static const char *end_apart(const char *path, const char *other) {
    const char *a = path + strlen(path), *b = other + strlen(other);
    while (a > path && b > other && a[-1] == b[-1]) {
        a--;
        b--;
    }
    while (a > path && a[-1] != '/')
        a--;
    return a;
}

const char *short_source(const char *path) {
    const char *base = base_of(path), *shortest = base;
    sort_sources();
    for (size_t i = first_of_base(base); i < source_count && strcmp(sources[i].base, base) == 0; i++) {
        const char *end = strcmp(sources[i].path, path) == 0 ? base : end_apart(path, sources[i].path);
        shortest = end < shortest ? end : shortest;
    }
    return shortest;
}
