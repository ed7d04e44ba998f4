/* 8,300 static locks: 8,192 classes are kept, and the others are left out and counted. */
#include "common.h"
static pthread_mutex_t m[8300];
int main(void) {
    pthread_mutex_lock(&m[8299]);
    for (int i = 0; i < 8299; i++)
        TAKE(&m[i]);
    pthread_mutex_unlock(&m[8299]);
}
