/* The locks of C11, which glibc takes without calling the functions of pthreads. */
#include "common.h"
static mtx_t a, b;
static cnd_t changed;

static APART void init_a(void) { mtx_init(&a, mtx_plain); }
static APART void init_b(void) { mtx_init(&b, mtx_timed | mtx_recursive); }

int main(void) {
    struct timespec later = in_milliseconds(CLOCK_REALTIME, 10000), soon = in_milliseconds(CLOCK_REALTIME, 20);
    init_a();
    init_b();
    cnd_init(&changed);
    mtx_lock(&a);
    mtx_timedlock(&b, &later);
    mtx_lock(&b);
    mtx_unlock(&b);
    mtx_unlock(&b);
    cnd_timedwait(&changed, &a, &soon);
    mtx_lock(&b);
    mtx_unlock(&b);
    mtx_unlock(&a);
    mtx_destroy(&a);
}
