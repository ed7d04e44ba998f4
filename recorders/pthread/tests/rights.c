/* A program that gives up its root folder and its rights before it locks. Only root can. */
#include "common.h"
static pthread_mutex_t a = PTHREAD_MUTEX_INITIALIZER;

THREAD(locks, TAKE(&a))

int main(void) {
    if (chroot("/proc/self/fdinfo") != 0 || chdir("/") != 0 || setgid(65534) != 0 || setuid(65534) != 0)
        return 1;
    in_thread(locks, NULL);
    in_thread(locks, NULL);
}
