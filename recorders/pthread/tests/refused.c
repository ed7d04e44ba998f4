/* Calls that fail take nothing and end nobody's hold: waits until a time that is none, on a clock that is none, and releases by a thread
   that doesn't hold the mutex. */
#include "common.h"
static pthread_mutex_t checked = PTHREAD_ERRORCHECK_MUTEX_INITIALIZER_NP, recursive = PTHREAD_RECURSIVE_MUTEX_INITIALIZER_NP,
                       other = PTHREAD_MUTEX_INITIALIZER;
static pthread_rwlock_t both = PTHREAD_RWLOCK_INITIALIZER;
static mtx_t plain;
static pthread_cond_t changed = PTHREAD_COND_INITIALIZER;
static cnd_t c11_changed;
static const struct timespec less = {0, -5}, more = {0, 1000000000}, long_ago = {1, 0};

static void is(int answer, int wanted) {
    if (answer != wanted)
        abort();
}

static void *releases(void *unused) {
    is(pthread_mutex_unlock(&checked), EPERM);
    is(pthread_mutex_unlock(&recursive), EPERM);
    return unused;
}

static void refused_waits(void) {
    pthread_mutex_lock(&other);
    pthread_mutex_lock(&checked);
    is(pthread_cond_timedwait(&changed, &other, &less), EINVAL);
    is(pthread_cond_timedwait(&changed, &other, &more), EINVAL);
    is(pthread_cond_clockwait(&changed, &other, CLOCK_MONOTONIC, &more), EINVAL);
    is(pthread_cond_clockwait(&changed, &other, CLOCK_PROCESS_CPUTIME_ID, &long_ago), EINVAL);
    pthread_mutex_unlock(&checked);
    pthread_mutex_unlock(&other);
}

APART static void refused_c11_wait(void) {
    mtx_init(&plain, mtx_timed);
    cnd_init(&c11_changed);
    mtx_lock(&plain);
    pthread_mutex_lock(&other);
    is(cnd_timedwait(&c11_changed, &plain, &more), thrd_error);
    pthread_mutex_unlock(&other);
    mtx_unlock(&plain);
}

static void refused_read_write_locks(void) {
    is(pthread_rwlock_timedrdlock(&both, &more), EINVAL);
    is(pthread_rwlock_timedwrlock(&both, &less), EINVAL);
    is(pthread_rwlock_clockrdlock(&both, CLOCK_MONOTONIC, &more), EINVAL);
    is(pthread_rwlock_clockwrlock(&both, CLOCK_MONOTONIC, &less), EINVAL);
}

static void refused_releases(void) {
    pthread_mutex_lock(&checked);
    pthread_mutex_lock(&recursive);
    in_thread(releases, NULL);
    TAKE(&other);
    pthread_mutex_unlock(&recursive);
    pthread_mutex_unlock(&checked);
    is(pthread_mutex_unlock(&checked), EPERM);
}

int main(void) {
    refused_waits();
    refused_c11_wait();
    refused_read_write_locks();
    refused_releases();
}
