/* Nothing is lost of a process that ends by raise(SIGKILL). */
#include "common.h"
static pthread_mutex_t a = PTHREAD_MUTEX_INITIALIZER, b = PTHREAD_MUTEX_INITIALIZER;
int main(void) {
    pthread_mutex_lock(&a);
    TAKE(&b);
    raise(SIGKILL);
}
