/* A program that closes all descriptors, and puts its own file on many numbers: its files stay its own, its first descriptor is 3,
   and all of it is recorded. */
#include "common.h"
#include <fcntl.h>
#include <sys/stat.h>
static pthread_mutex_t a = PTHREAD_MUTEX_INITIALIZER, b = PTHREAD_MUTEX_INITIALIZER, c = PTHREAD_MUTEX_INITIALIZER;

static void *locks(void *lock) {
    NEST(&a, lock);
    return NULL;
}

int main(void) {
    int own = open("/dev/null", O_RDONLY);
    if (own != 3)
        abort();
    close_range(3, ~0U, 0);
    in_thread(locks, &b);
    FILE *file = tmpfile();
    fputs("mine", file);
    fflush(file);
    for (int number = 10; number < 60; number++)
        dup2(fileno(file), number);
    in_thread(locks, &c);
    struct stat about;
    if (fstat(fileno(file), &about) != 0 || about.st_size != 4)
        abort();
    for (int number = 0; number < 1024; number++)
        close(number);
    in_thread(locks, &b);
}
