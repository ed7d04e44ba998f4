/* Names that have what separates parts of a name elsewhere, and one that another lock has by itself. */
#include <lockdep.h>
#include <pthread.h>

static pthread_mutex_t locks[3], plain = PTHREAD_MUTEX_INITIALIZER;

int main(void) {
    static const char *const names[] = {"a,b", "say\"it\"@home#1", "plain"};
    for (int i = 0; i < 3; i++)
        LOCKDEP_CLASS(&locks[i], names[i]);
    pthread_mutex_lock(&plain);
    for (int i = 0; i < 3; i++)
        pthread_mutex_lock(&locks[i]);
    for (int i = 3; i-- > 0;)
        pthread_mutex_unlock(&locks[i]);
    pthread_mutex_unlock(&plain);
    return 0;
}
