/* A malloc that gives out pieces of 16 bytes one after the other, and first what was given back last. All memory is glibc's. */
#include <stdatomic.h>
#include <stddef.h>
#include <stdint.h>

void *__libc_malloc(size_t size);
void __libc_free(void *piece);

#define BYTES 1048576
static char *from;
static _Atomic size_t next;
static char *_Atomic given_back;

__attribute__((constructor)) static void begin(void) { from = __libc_malloc(BYTES); }

void *malloc(size_t size) {
    if (!from || size != 16)
        return __libc_malloc(size);
    char *piece = atomic_exchange(&given_back, NULL);
    size_t at = piece ? 0 : atomic_fetch_add(&next, size);
    return piece ? piece : at < BYTES ? from + at : __libc_malloc(size);
}

void free(void *piece) {
    if ((uintptr_t)piece - (uintptr_t)from < BYTES)
        atomic_store(&given_back, piece);
    else
        __libc_free(piece);
}
