/* What the parts of the library share that is loaded with LOCKDEP_SIGNALS=all: it tells the recorder of calls of the C library that lock inside. */
#ifndef LOCKDEP_LIBRARY_H
#define LOCKDEP_LIBRARY_H
#ifndef _GNU_SOURCE
#define _GNU_SOURCE
#endif

#include <dlfcn.h>

#define EXPORT __attribute__((visibility("default")))

/* The recorder's. It isn't there if the program was started with this library alone. */
void lockdep_use_library(const void *lock, const char *name, int is_stream, void *caller, void *frame) __attribute__((weak));

/* (a macro, so that the caller is the program's) */
#define USE(lock, name, is_stream)                                                                                     \
    (lockdep_use_library ? lockdep_use_library(lock, name, is_stream, __builtin_return_address(0), __builtin_frame_address(0)) : (void)0)

/* The real functions are found at the start, since the loader's lock may not be waited for in a handler, or when they are called first, by a
   constructor that runs before. */
#define KNOWN_REAL(name) static __typeof__(&name) real_##name;
#define FIND_REAL(name) real_##name = (__typeof__(&name))dlsym(RTLD_NEXT, #name);
#define FIND_AT_START(REALS)                                                                                           \
    REALS(KNOWN_REAL)                                                                                                  \
    __attribute__((constructor)) static void find_at_start(void) { REALS(FIND_REAL) }
#define REAL(name) (__builtin_expect(real_##name != 0, 1) ? real_##name : (real_##name = (__typeof__(&name))dlsym(RTLD_NEXT, #name)))

#endif
