/* A library's constructor takes a lock under which another thread loads a library: the loader's lock is the other one of the two.
   The libraries are found by the paths of the one that loads them; one asks to be bound to what it has itself first. */
#include "common.h"
#include <dlfcn.h>
pthread_mutex_t a = PTHREAD_MUTEX_INITIALIZER;

static void *loads_under_a(void *path) {
    pthread_mutex_lock(&a);
    if (!dlopen(path, RTLD_NOW | RTLD_DEEPBIND))
        abort();
    pthread_mutex_unlock(&a);
    return NULL;
}

static void *loads(void *path) {
    void *library = dlopen(path, RTLD_NOW);
    int (*load)(void) = library ? (int (*)(void))dlsym(library, "load") : NULL;
    if (!load || load() != 0)
        abort();
    return NULL;
}

int main(int argc, char **argv) {
    if (argc < 3)
        return 1;
    in_thread(loads, argv[1]);
    in_thread(loads_under_a, argv[2]);
}
