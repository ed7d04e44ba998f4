/* Each way to get memory and to give it back, with a lock in it; many threads, so that pieces come and go at once. */
#include "common.h"
#include <malloc.h>

static void use(void *piece, size_t size) {
    if (!piece || size < sizeof(pthread_mutex_t) + 8)
        abort();
    memset(piece, 0, size);
    pthread_mutex_t *m = (pthread_mutex_t *)((char *)piece + (size - sizeof *m) / 8 * 8);
    TAKE(m);
}

static void *churn(void *unused) {
    void *pieces[64] = {0};
    unsigned seed = 1;
    for (int i = 0; i < 20000; i++) {
        seed = seed * 1103515245 + 12345;
        unsigned slot = seed >> 16 & 63;
        size_t size = 48 + (seed >> 22) * (seed >> 8 & 7);
        void *aligned = NULL;
        switch (seed >> 28) {
        case 0: free(pieces[slot]), pieces[slot] = calloc(1, size); break;
        case 1: pieces[slot] = realloc(pieces[slot], size); break;
        case 2: free(pieces[slot]), pieces[slot] = aligned_alloc(64, (size + 63) / 64 * 64); break;
        case 3: free(pieces[slot]), pieces[slot] = posix_memalign(&aligned, 128, size) == 0 ? aligned : NULL; break;
        case 4: free(pieces[slot]), pieces[slot] = memalign(32, size); break;
        case 5: pieces[slot] = reallocarray(pieces[slot], size, 1); break;
        case 6: free(pieces[slot]), pieces[slot] = malloc(size = size * 1000); break;
        default: free(pieces[slot]), pieces[slot] = malloc(size);
        }
        use(pieces[slot], size);
    }
    for (int i = 0; i < 64; i++)
        free(pieces[i]);
    return unused;
}

int main(void) {
    pthread_t t[8];
    for (int i = 0; i < 8; i++)
        pthread_create(&t[i], NULL, churn, NULL);
    for (int i = 0; i < 8; i++)
        pthread_join(t[i], NULL);
}
