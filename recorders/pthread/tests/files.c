/* Locks of files: two processes that take two files in both orders, by flock and by lockf, and ranges of one file. */
#include "common.h"
#include <fcntl.h>
#include <sys/file.h>

static int opened(const char *path) {
    int file = open(path, O_RDWR | O_CREAT, 0644);
    if (file < 0)
        abort();
    return file;
}

static void ends_well(int answer) {
    if (answer != 0)
        abort();
}

/* Both by flock: the second is given up when it is closed. */
static void pays(const char *accounts, const char *journal) {
    int first = opened(accounts), second = opened(journal);
    ends_well(flock(first, LOCK_EX));
    ends_well(flock(second, LOCK_SH));
    close(second);
    ends_well(flock(first, LOCK_UN));
    close(first);
}

/* The other order; what is taken with another lock of the process is given up with the file. */
static void audits(const char *accounts, const char *journal) {
    int first = opened(journal), second = opened(accounts);
    ends_well(flock(first, LOCK_EX));
    ends_well(lockf(second, F_LOCK, 0));
    close(second);
    close(first);
}

/* Two ranges of a file, the second one by a try, and the whole of another file under both. */
static void splits(const char *ranges, const char *journal) {
    int first = opened(ranges), second = opened(journal);
    struct flock one = {.l_type = F_WRLCK, .l_whence = SEEK_SET, .l_start = 100, .l_len = 10};
    struct flock two = {.l_type = F_RDLCK, .l_whence = SEEK_SET, .l_start = 200, .l_len = 10};
    struct flock none = {.l_type = F_UNLCK, .l_whence = SEEK_SET};
    ends_well(fcntl(first, F_OFD_SETLKW, &one));
    ends_well(fcntl(first, F_SETLK, &two));
    ends_well(flock(second, LOCK_EX | LOCK_NB));
    ends_well(flock(second, LOCK_UN));
    ends_well(fcntl(first, F_SETLK, &none));
    close(first);
    close(second);
}

int main(int argc, char **argv) {
    if (argc < 4)
        return 2;
    pays(argv[1], argv[2]);
    pid_t child = fork();
    if (child == 0) {
        audits(argv[1], argv[2]);
        _exit(0);
    }
    waitpid(child, NULL, 0);
    splits(argv[3], argv[2]);
}
