/* The operators `new[]` of C++: what comes from them is an array. They go on to those of the C++ library, and these to its `new`. */
#include "held.h"

#include <stdlib.h>

EXPORT void *_Znam(size_t size);
EXPORT void *_ZnamRKSt9nothrow_t(size_t size, const void *nothrow);
EXPORT void *_ZnamSt11align_val_t(size_t size, size_t alignment);
EXPORT void *_ZnamSt11align_val_tRKSt9nothrow_t(size_t size, size_t alignment, const void *nothrow);

/* The real one, once found. A program that calls one has a library with all of them; if it can't be found, malloc will do. */
static void *real_one(void **known, const char *name, void *other) {
    void *real = LOAD(known);
    if (UNLIKELY(!real)) {
        real = find_in_libraries(name);
        real = real ? real : other;
        STORE(known, real);
    }
    return real;
}

static void *taken(void *piece) {
    if (!piece)
        abort();
    return piece;
}

static void *by_malloc(size_t size) { return taken(malloc(size)); }
static void *by_malloc_quietly(size_t size, const void *nothrow) {
    (void)nothrow;
    return malloc(size);
}

static void *by_aligned_alloc(size_t size, size_t alignment) { return taken(aligned_alloc(alignment, size)); }

static void *by_aligned_alloc_quietly(size_t size, size_t alignment, const void *nothrow) {
    (void)nothrow;
    return aligned_alloc(alignment, size);
}

static void *plain, *quiet, *aligned, *aligned_quiet;

/* Each is left by a jump, so that no frame of ours stands between the caller and the C++ library. */

EXPORT void *_Znam(size_t size) {
    void *(*real)(size_t) = real_one(&plain, "_Znam", by_malloc);
    self.midst.array_asked_for = size;
    return real(size);
}

EXPORT void *_ZnamRKSt9nothrow_t(size_t size, const void *nothrow) {
    void *(*real)(size_t, const void *) = real_one(&quiet, "_ZnamRKSt9nothrow_t", by_malloc_quietly);
    self.midst.array_asked_for = size;
    return real(size, nothrow);
}

EXPORT void *_ZnamSt11align_val_t(size_t size, size_t alignment) {
    void *(*real)(size_t, size_t) = real_one(&aligned, "_ZnamSt11align_val_t", by_aligned_alloc);
    self.midst.array_asked_for = size;
    return real(size, alignment);
}

EXPORT void *_ZnamSt11align_val_tRKSt9nothrow_t(size_t size, size_t alignment, const void *nothrow) {
    void *(*real)(size_t, size_t, const void *) =
        real_one(&aligned_quiet, "_ZnamSt11align_val_tRKSt9nothrow_t", by_aligned_alloc_quietly);
    self.midst.array_asked_for = size;
    return real(size, alignment, nothrow);
}
