/* A library is closed, and another one that comes to lie at its place has another lock there. */
#include "common.h"
#include <dlfcn.h>

static void use(const char *folder, const char *name) {
    char path[4096];
    snprintf(path, sizeof path, "%s/%s", folder, name);
    void *library = dlopen(path, RTLD_NOW);
    void (*run)(void) = library ? (void (*)(void))dlsym(library, "run") : NULL;
    if (!run)
        abort();
    printf("%p\n", (void *)run);
    run();
    dlclose(library);
}

int main(int argc, char **argv) {
    if (argc < 2)
        return 1;
    use(argv[1], "one.so");
    use(argv[1], "two.so");
    use(argv[1], "one.so");
}
