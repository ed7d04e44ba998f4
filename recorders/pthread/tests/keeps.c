/* A program that keeps all its memory in the machine: the recorder's tables, most of them empty, aren't filled for that. */
#include "common.h"
#include <sys/mman.h>
#include <sys/resource.h>
static pthread_mutex_t a = PTHREAD_MUTEX_INITIALIZER;
int main(void) {
    struct rusage used;
    mlockall(MCL_CURRENT | MCL_FUTURE); /* it may not be allowed to */
    TAKE(&a);
    getrusage(RUSAGE_SELF, &used);
    return used.ru_maxrss < 500000 ? 0 : 1; /* in KiB */
}
