/* Functions by the names that older programs know them by, and a library in a namespace of its own. */
#include "common.h"
#include <dlfcn.h>
static pthread_mutex_t a = PTHREAD_MUTEX_INITIALIZER;

int main(void) {
    int (*lock)(pthread_mutex_t *) = (int (*)(pthread_mutex_t *))dlsym(RTLD_DEFAULT, "__pthread_mutex_lock");
    int (*unlock)(pthread_mutex_t *) = (int (*)(pthread_mutex_t *))dlsym(RTLD_DEFAULT, "__pthread_mutex_unlock");
    if (lock && unlock) {
        lock(&a);
        unlock(&a);
    }
    return dlmopen(LM_ID_NEWLM, "libm.so.6", RTLD_NOW) ? 0 : 1;
}
