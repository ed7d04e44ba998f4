/* So many sessions are opened, each locked with the table held while it is new, and then closed, each with its lock held as the table is taken.
   With a second word the last session is locked once more with the table held, by another thread, when it isn't new. */
#include "common.h"

struct session {
    pthread_mutex_t lock;
};

static pthread_mutex_t table = PTHREAD_MUTEX_INITIALIZER;
static struct session **sessions;
static int count;

static void open_one(int number) {
    pthread_mutex_lock(&table);
    sessions[number] = malloc(sizeof **sessions);
    pthread_mutex_init(&sessions[number]->lock, NULL);
    TAKE(&sessions[number]->lock);
    pthread_mutex_unlock(&table);
}

static void *opens_and_closes(void *unused) {
    for (int i = 0; i < count; i++)
        open_one(i);
    for (int i = 0; i < count; i++)
        NEST(&sessions[i]->lock, &table);
    return unused;
}

THREAD(kicks_last, NEST(&table, &sessions[count - 1]->lock))

int main(int argc, char **argv) {
    count = atoi(argv[1]);
    sessions = calloc((size_t)count, sizeof *sessions);
    in_thread(opens_and_closes, NULL);
    if (argc > 2)
        in_thread(kicks_last, NULL);
    return 0;
}
