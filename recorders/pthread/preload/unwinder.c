/* What the compiler calls where an exception or the end of a thread passes through a function that has to tidy up. The library that
   has it is dear to load, and most programs never need it: so it is looked for when it is needed, as the C library itself does. */
#include "own.h"

#include <stdlib.h>

struct exception;
struct context;

#define NEEDED __attribute__((used, visibility("hidden")))

/* By this the C library knows which library registers a handler of forks. Compilers put it into each one, with functions that do nothing
   here but look for others, so this one is linked without. It stays loaded, so it may pass for the program. */
NEEDED void *__dso_handle = NULL;

NEEDED int __gcc_personality_v0(int version, int actions, uint64_t kind, struct exception *exception, struct context *context);
NEEDED void _Unwind_Resume(struct exception *exception);

static void *unwinder(void **known, const char *name) {
    void *found = LOAD(known);
    if (found)
        return found;
    found = find_in_unwinder(name);
    if (!found)
        abort();
    STORE(known, found);
    return found;
}

static void *personality, *resume;

int __gcc_personality_v0(int version, int actions, uint64_t kind, struct exception *exception, struct context *context) {
    int (*real)(int, int, uint64_t, struct exception *, struct context *) = unwinder(&personality, "__gcc_personality_v0");
    return real(version, actions, kind, exception, context);
}

void _Unwind_Resume(struct exception *exception) {
    void (*real)(struct exception *) = unwinder(&resume, "_Unwind_Resume");
    real(exception);
    abort();
}
