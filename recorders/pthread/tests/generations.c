/* Two mutexes in memory that processes share: without a file, in one that each maps where it likes, or in that of shm_open. They are initialised
   three times, by either process, and in each life all nest them one way, which isn't that of the life before: these are other locks, which
   nobody takes both ways. A third process comes in the last life, and knows only that. In the way `both` the second process nests them the other
   way round in the last life, and so it does in `once`, in the only one. In the way `unknown` the second process can't count with the others. And
   `often` initialises them forty times alone, and nests them one way and then the other. */
#include "common.h"
#include <fcntl.h>
#include <stdatomic.h>
#include <stdbool.h>
#include <sys/mman.h>
#include <sys/resource.h>

struct both {
    pthread_mutex_t accounts, journal;
    atomic_int turn;
};

static APART void make(pthread_mutex_t *lock) {
    pthread_mutexattr_t how;
    pthread_mutexattr_init(&how);
    pthread_mutexattr_setpshared(&how, PTHREAD_PROCESS_SHARED);
    pthread_mutex_init(lock, &how);
}
static APART void make_accounts(struct both *b) { make(&b->accounts); }
static APART void make_journal(struct both *b) { make(&b->journal); }
static APART void make_both(struct both *b) {
    make_accounts(b);
    make_journal(b);
}

static void forward(struct both *b) { NEST(&b->accounts, &b->journal); }
static void backward(struct both *b) { NEST(&b->journal, &b->accounts); }

static void await_turn(struct both *b, int turn) {
    while (b->turn != turn)
        usleep(1000);
}

static struct both *map(const char *memory, const char *path) {
    bool is_file = strcmp(memory, "file") == 0, has_none = strcmp(memory, "none") == 0;
    int file = has_none ? -1 : is_file ? open(path, O_RDWR) : shm_open(path, O_RDWR, 0600);
    struct both *b = mmap(NULL, sizeof *b, PROT_READ | PROT_WRITE, has_none ? MAP_SHARED | MAP_ANONYMOUS : MAP_SHARED, file, 0);
    if (b == MAP_FAILED)
        abort();
    close(file);
    return b;
}

static void first(struct both *b, bool is_once) {
    forward(b);
    b->turn = 1;
    await_turn(b, 2);
    if (is_once)
        return;
    make_both(b);
    backward(b);
    b->turn = 3;
    await_turn(b, 4);
    forward(b);
}

static void second(struct both *b, const char *way) {
    await_turn(b, 1);
    if (strcmp(way, "once") == 0) {
        backward(b);
        b->turn = 2;
        return;
    }
    forward(b);
    b->turn = 2;
    await_turn(b, 3);
    backward(b);
    make_both(b);
    (strcmp(way, "both") == 0 ? backward : forward)(b);
    b->turn = 4;
}

/* As another process, which inherits nothing but memory without a file. */
static pid_t begin(struct both *b, char **argv, const char *who) {
    pid_t child = fork();
    if (child)
        return child;
    if (strcmp(argv[1], "none") != 0)
        execl("/proc/self/exe", argv[0], argv[1], argv[2], argv[3], who, NULL);
    strcmp(who, "second") == 0 ? second(b, argv[3]) : forward(b);
    exit(0);
}

static void often(struct both *b) {
    for (int time = 0; time < 40; time++) {
        make_both(b);
        (time % 2 ? backward : forward)(b);
    }
}

/* It may make no file. */
static pid_t begin_unknown(char **argv) {
    pid_t child = fork();
    if (child)
        return child;
    setrlimit(RLIMIT_FSIZE, &(struct rlimit){0, 0});
    second(map(argv[1], argv[2]), argv[3]);
    exit(0);
}

int main(int argc, char **argv) { /* MEMORY PATH WAY [WHO] */
    if (argc > 4) {
        mmap(NULL, 1 << 20, PROT_READ, MAP_PRIVATE | MAP_ANONYMOUS, -1, 0); /* so that it is at another address */
        struct both *b = map(argv[1], argv[2]);
        strcmp(argv[4], "second") == 0 ? second(b, argv[3]) : forward(b);
        return 0;
    }
    bool is_unknown = strcmp(argv[3], "unknown") == 0;
    pid_t child = is_unknown ? begin_unknown(argv) : 0;
    struct both *b = map(argv[1], argv[2]);
    if (strcmp(argv[3], "often") == 0) {
        often(b);
        return 0;
    }
    make_both(b);
    child = is_unknown ? child : begin(b, argv, "second");
    first(b, strcmp(argv[3], "once") == 0);
    waitpid(child, NULL, 0);
    if (strcmp(argv[3], "once") != 0)
        waitpid(begin(b, argv, "third"), NULL, 0);
}
