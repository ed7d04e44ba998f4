/* A library with a handler is closed, and another one that comes to lie at its place has another handler there. Says where each one was. */
#include "common.h"
#include <dlfcn.h>
static void use(const char *path) {
    void *library = dlopen(path, RTLD_NOW);
    void (*handler)(int) = library ? (void (*)(int))dlsym(library, "on_usr1") : NULL;
    if (!handler) abort();
    printf("%p\n", (void *)handler);
    handle(SIGUSR1, handler, 0); raise(SIGUSR1); signal(SIGUSR1, SIG_DFL);
    dlclose(library);
}
int main(int count, char **paths) { for (int i = 1; i < count; i++) use(paths[i]); }
