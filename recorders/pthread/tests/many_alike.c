/* More threads than a run takes, which all do the same; but for the first of them, if there is an argument. */
#include "common.h"
static pthread_mutex_t a = PTHREAD_MUTEX_INITIALIZER, b = PTHREAD_MUTEX_INITIALIZER;

THREAD(nests, NEST(&a, &b))
THREAD(nests_otherwise, NEST(&b, &a))

int main(int argc, char **argv) {
    (void)argv;
    for (int i = 0; i < 5000; i++)
        in_thread(i == 0 && argc > 1 ? nests_otherwise : nests, NULL);
}
