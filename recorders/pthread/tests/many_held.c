/* 60 locks are held at once: the oldest is dropped for the 49th and each later one. */
#include "common.h"
static pthread_mutex_t m[60];
int main(void) {
    for (int i = 0; i < 60; i++)
        pthread_mutex_lock(&m[i]);
    for (int i = 0; i < 60; i++)
        pthread_mutex_unlock(&m[i]);
}
