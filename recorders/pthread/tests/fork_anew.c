/* Handlers of fork that take all locks before, and in the child make new ones of them, as allocators do: by initialising (`init`), by
   assigning (`assign`), or by giving them back and taking and giving back another one first (`mixed`). Two of the locks are the program's.
   In the child they are taken in both orders (`both`), or in one (`one`), each time by a thread of its own but for the first. */
#include "common.h"
#define LOCKS 60
static pthread_mutex_t locks[LOCKS], a, b, gate = PTHREAD_MUTEX_INITIALIZER;
static const char *way;

static APART void init_all(void) {
    for (int i = 0; i < LOCKS; i++)
        pthread_mutex_init(&locks[i], NULL);
    pthread_mutex_init(&a, NULL);
    pthread_mutex_init(&b, NULL);
}

static void take_all(void) {
    pthread_mutex_lock(&a);
    pthread_mutex_lock(&b);
    for (int i = 0; i < LOCKS; i++)
        pthread_mutex_lock(&locks[i]);
}

static void give_all(void) {
    for (int i = LOCKS; i-- > 0;)
        pthread_mutex_unlock(&locks[i]);
    pthread_mutex_unlock(&b);
    pthread_mutex_unlock(&a);
}

static void assign_all(void) {
    for (int i = 0; i < LOCKS; i++)
        locks[i] = (pthread_mutex_t)PTHREAD_MUTEX_INITIALIZER;
    a = b = (pthread_mutex_t)PTHREAD_MUTEX_INITIALIZER;
}

static void in_child(void) {
    if (strcmp(way, "init") == 0)
        init_all();
    if (strcmp(way, "mixed") == 0)
        TAKE(&gate);
    if (strcmp(way, "init") != 0)
        assign_all();
}

int main(int argc, char **argv) {
    way = argc > 1 ? argv[1] : "init";
    int is_both = argc > 2 && strcmp(argv[2], "both") == 0;
    init_all();
    pthread_atfork(take_all, give_all, in_child);
    pid_t child = fork();
    if (child == 0) {
        nest_pair((pthread_mutex_t *[]){&a, &b});
        in_thread(nest_pair, is_both ? (pthread_mutex_t *[]){&b, &a} : (pthread_mutex_t *[]){&a, &b});
        _exit(0);
    }
    int status = 1;
    return waitpid(child, &status, 0) == child && status == 0 ? 0 : 1;
}
