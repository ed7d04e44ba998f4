/* More than a million events, each of them new: the trace ends in time, with whole records. */
#include "common.h"
static pthread_mutex_t m[24];
int main(void) {
    unsigned seed = 1;
    for (int round = 0; round < 400000; round++) {
        int held[8], count = 0;
        for (int i = 0; i < 24 && count < 8; i++) {
            seed = seed * 1103515245 + 12345;
            if (seed >> 30 & 1)
                pthread_mutex_lock(&m[held[count++] = i]);
        }
        while (count > 0)
            pthread_mutex_unlock(&m[held[--count]]);
    }
}
