/* Two threads nest locks that had no names of their own until then, each lock at the same moment. */
#include "common.h"
#include <sched.h>
#include <stdatomic.h>

#define SITES 64
#define EACH 28 /* locks of a site, of which 32 get names of their own */
#define LOOKS 256
#define CASE(n)                                                                                                        \
    case n:                                                                                                            \
        pthread_mutex_init(lock, NULL);                                                                                \
        break;
#define CASES(n) CASE(n) CASE(n + 1) CASE(n + 2) CASE(n + 3) CASE(n + 4) CASE(n + 5) CASE(n + 6) CASE(n + 7)

static pthread_mutex_t locks[SITES * EACH], outer[2] = {PTHREAD_MUTEX_INITIALIZER, PTHREAD_MUTEX_INITIALIZER};
static atomic_uint arrived;

static void make(int site, pthread_mutex_t *lock) {
    switch (site) { CASES(0) CASES(8) CASES(16) CASES(24) CASES(32) CASES(40) CASES(48) CASES(56) }
}

static void *nests(void *own) {
    for (unsigned i = 0; i < SITES * EACH; i++) {
        atomic_fetch_add(&arrived, 1);
        for (unsigned looks = 1; atomic_load(&arrived) < 2 * i + 2; looks++)
            if (looks % LOOKS == 0)
                sched_yield(); /* on a busy machine the other thread may have no processor */
        NEST((pthread_mutex_t *)own, &locks[i]);
    }
    return NULL;
}

int main(void) {
    for (int i = 0; i < SITES * EACH; i++)
        make(i % SITES, &locks[i]);
    pthread_t other;
    pthread_create(&other, NULL, nests, &outer[0]);
    nests(&outer[1]);
    return pthread_join(other, NULL);
}
