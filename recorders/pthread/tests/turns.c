/* A thread that is joined with a lock held, in a cycle with the order of another thread, which differs by when that other one is joined:
     before  before, without a lock
     listed  before, and further threads are joined with the lock held before and after
     told    before, by a thread that was joined itself
     once    before, but a thread of the same function was joined with the lock held before that
     later   after: a cycle
     tried   before, by a call that would have given up: a cycle
     meets   before, but a further thread takes its locks in the same order until the end: a cycle
     other   before, and a further thread with another lock is joined at the end: a cycle through that one */
#include "common.h"
#include "asleep.h"

static pthread_mutex_t list = PTHREAD_MUTEX_INITIALIZER, sessions = PTHREAD_MUTEX_INITIALIZER, own = PTHREAD_MUTEX_INITIALIZER;
static const char *way;
static int has_taken, is_joined; /* the thread that takes `sessions`, which goes on until it is joined */

static void set(int *flag) { __atomic_store_n(flag, 1, __ATOMIC_SEQ_CST); }

static void await(int *flag) {
    while (!__atomic_load_n(flag, __ATOMIC_SEQ_CST))
        usleep(1000);
}

static int is(const char *name) { return strcmp(way, name) == 0; }

THREAD(client, NEST(&sessions, &list))
THREAD(keeper, NEST(&own, &list))
THREAD(lister, TAKE(&own))

static void *manager(void *takes) {
    TAKE(takes ? &sessions : &own);
    if (is("other"))
        TAKE(&own);
    if (!takes)
        return NULL;
    set(&has_taken);
    await(&is_joined);
    await_asleep();
    return NULL;
}

static pthread_t started(void *(*run)(void *), void *with) {
    pthread_t thread;
    pthread_create(&thread, NULL, run, with);
    return thread;
}

static void join_under_list(pthread_t thread) {
    pthread_mutex_lock(&list);
    pthread_join(thread, NULL);
    pthread_mutex_unlock(&list);
}

static void *joins(void *thread) {
    pthread_join(*(pthread_t *)thread, NULL);
    return NULL;
}

static void join_client(pthread_t client) {
    while (is("tried") && pthread_tryjoin_np(client, NULL) != 0)
        usleep(1000);
    if (is("told"))
        in_thread(joins, &client);
    else if (!is("tried"))
        pthread_join(client, NULL);
}

int main(int argc, char **argv) {
    way = argc > 1 ? argv[1] : "";
    pthread_t first = started(client, NULL), second = started(manager, &sessions);
    await(&has_taken);
    if (is("once") || is("later"))
        join_under_list(started(is("once") ? manager : lister, NULL));
    if (!is("later"))
        join_client(first);
    if (is("listed"))
        join_under_list(started(lister, NULL));
    pthread_t third = is("meets") || is("other") ? started(is("meets") ? client : keeper, NULL) : 0;
    set(&is_joined);
    join_under_list(second);
    if (is("listed"))
        join_under_list(started(lister, NULL));
    if (is("later"))
        join_client(first);
    if (third)
        pthread_join(third, NULL);
    return 0;
}
