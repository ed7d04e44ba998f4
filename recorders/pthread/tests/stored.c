/* The most memory that a program has, in KiB, which keeps so many megabytes of short pieces. */
#include "common.h"
#include <sys/resource.h>

#define PIECE 48 /* what malloc takes for 40 bytes */

int main(int argc, char **argv) {
    struct rusage used;
    for (long left = argc > 1 ? atol(argv[1]) << 20 : 0; left > 0; left -= PIECE)
        *(void *volatile *)malloc(40) = NULL;
    getrusage(RUSAGE_SELF, &used);
    printf("%ld\n", used.ru_maxrss);
}
