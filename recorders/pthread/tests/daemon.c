/* A program that goes into the background: what it does there is recorded. */
#include "common.h"
static pthread_mutex_t a = PTHREAD_MUTEX_INITIALIZER, b = PTHREAD_MUTEX_INITIALIZER;
int main(int argc, char **argv) {
    if (argc < 2 || daemon(1, 0) != 0)
        return 1;
    NEST(&a, &b);
    FILE *file = fopen(argv[1], "w");
    return file && fclose(file) == 0 ? 0 : 1;
}
