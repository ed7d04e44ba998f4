/* A lock that processes share is held at a fork: the child never has it, so what it takes isn't taken under it. */
#include <pthread.h>
#include <sys/mman.h>
#include <sys/wait.h>
#include <unistd.h>

struct region {
    pthread_mutex_t a;
    pthread_rwlock_t c;
    pthread_mutex_t b;
};

static void nest_in_child(struct region *r) {
    if (!fork()) {
        pthread_mutex_lock(&r->b);
        pthread_mutex_lock(&r->a);
        pthread_rwlock_wrlock(&r->c);
        pthread_rwlock_unlock(&r->c);
        pthread_mutex_unlock(&r->a);
        pthread_mutex_unlock(&r->b);
        _exit(0);
    }
    wait(NULL);
}

int main(void) {
    struct region *r = mmap(NULL, sizeof *r, PROT_READ | PROT_WRITE, MAP_SHARED | MAP_ANONYMOUS, -1, 0);
    pthread_mutexattr_t shared;
    pthread_rwlockattr_t shared_too;
    pthread_mutexattr_init(&shared);
    pthread_rwlockattr_init(&shared_too);
    pthread_mutexattr_setpshared(&shared, PTHREAD_PROCESS_SHARED);
    pthread_rwlockattr_setpshared(&shared_too, PTHREAD_PROCESS_SHARED);
    pthread_mutex_init(&r->a, &shared);
    pthread_mutex_init(&r->b, &shared);
    pthread_rwlock_init(&r->c, &shared_too);
    pthread_mutex_lock(&r->a);
    pthread_rwlock_rdlock(&r->c);
    if (!fork()) {
        pthread_mutex_lock(&r->b);
        pthread_mutex_unlock(&r->b);
        _exit(0);
    }
    wait(NULL);
    pthread_rwlock_unlock(&r->c);
    pthread_mutex_unlock(&r->a);
    nest_in_child(r);
    return 0;
}
