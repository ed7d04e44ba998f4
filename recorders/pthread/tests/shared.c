/* Two mutexes that two processes share, in memory without a file that is inherited (initialised or not: `unmade`), or in a file that
   each maps where it likes. The processes take them in both orders, and hang: each has one when it waits for the other. A signal
   ends them. */
#include "common.h"
#include "asleep.h"
#include <fcntl.h>
#include <stdatomic.h>
#include <stdbool.h>
#include <sys/mman.h>

struct both {
    pthread_mutex_t accounts, journal;
    atomic_int met;
};

static APART void make(pthread_mutex_t *lock) {
    pthread_mutexattr_t how;
    pthread_mutexattr_init(&how);
    pthread_mutexattr_setpshared(&how, PTHREAD_PROCESS_SHARED);
    pthread_mutex_init(lock, &how);
}

static APART void make_accounts(struct both *b) { make(&b->accounts); }
static APART void make_journal(struct both *b) { make(&b->journal); }

static void meet(struct both *b) {
    b->met++;
    while (b->met < 2)
        usleep(1000);
}

static struct both *map(const char *path) {
    int file = path ? open(path, O_RDWR) : -1;
    struct both *b = mmap(NULL, sizeof *b, PROT_READ | PROT_WRITE, path ? MAP_SHARED : MAP_SHARED | MAP_ANONYMOUS, file, 0);
    if (b == MAP_FAILED)
        abort();
    close(file);
    return b;
}

static APART void pays(struct both *b) {
    pthread_mutex_lock(&b->accounts);
    meet(b);
    pthread_mutex_lock(&b->journal);
}

static APART void audits(struct both *b) {
    pthread_mutex_lock(&b->journal);
    meet(b);
    pthread_mutex_lock(&b->accounts);
}

int main(int argc, char **argv) {
    if (argc > 2) { /* the other process, which has inherited nothing: the memory is at another address */
        end_when_asleep();
        mmap(NULL, 1 << 20, PROT_READ, MAP_PRIVATE | MAP_ANONYMOUS, -1, 0);
        audits(map(argv[1]));
        return 1;
    }
    bool is_made = argc < 2 || strcmp(argv[1], "unmade") != 0, has_file = argc > 1 && is_made;
    struct both *b = map(has_file ? argv[1] : NULL);
    if (is_made) {
        make_accounts(b);
        make_journal(b);
    }
    signal(SIGALRM, SIG_DFL);
    pid_t child = fork();
    if (child == 0 && has_file)
        execl("/proc/self/exe", argv[0], argv[1], "again", NULL);
    end_when_asleep();
    if (child == 0) {
        audits(b);
        _exit(1);
    }
    pays(b);
}
