/* A library with a handler that takes a lock. */
#include <pthread.h>
static pthread_mutex_t NAME = PTHREAD_MUTEX_INITIALIZER;
void on_usr1(int s) { (void)s; pthread_mutex_lock(&NAME); pthread_mutex_unlock(&NAME); }
