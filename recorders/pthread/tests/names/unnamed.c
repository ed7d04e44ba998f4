/* Locks of structures without a name, each under one that has one; and an object that lies where one of another type did. */
#include <common.h>

static pthread_mutex_t known = PTHREAD_MUTEX_INITIALIZER;

static struct {
    int count;
    pthread_mutex_t first, second;
} pair;

static struct {
    pthread_mutex_t in, out;
} channels[2];

struct old {
    long number;
    pthread_mutex_t lock;
};

struct new {
    long number;
    pthread_mutex_t lock;
};

static void local(void) {
    struct {
        pthread_mutex_t one, other;
    } both = {PTHREAD_MUTEX_INITIALIZER, PTHREAD_MUTEX_INITIALIZER};
    NEST(&known, &both.one);
    NEST(&known, &both.other);
}

static void reused(void) {
    struct old *before = calloc(1, sizeof *before);
    NEST(&known, &before->lock);
    free(before);
    struct new *after = calloc(1, sizeof *after);
    NEST(&known, &after->lock);
    free(after);
}

int main(int argc, char **argv) {
    if (strcmp(argv[argc - 1], "reused") == 0) {
        reused();
        return 0;
    }
    NEST(&known, &pair.first);
    NEST(&known, &pair.second);
    NEST(&known, &channels[0].in);
    NEST(&known, &channels[1].out);
    local();
    return 0;
}
