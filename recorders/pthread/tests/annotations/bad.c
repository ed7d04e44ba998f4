/* Annotations that can't be followed, each once or as often as is said; and what they leave as it was. */
#include <lockdep.h>
#include <pthread.h>
#include <string.h>

static pthread_mutex_t outer = PTHREAD_MUTEX_INITIALIZER, inner = PTHREAD_MUTEX_INITIALIZER;
static char name[60];

/* A name of so many bytes. */
static const char *name_of(size_t length) {
    memset(name, 'n', sizeof name);
    name[length] = 0;
    return name;
}

int main(void) {
    LOCKDEP_CLASS(&outer, "");
    LOCKDEP_CLASS(&outer, name_of(49));
    LOCKDEP_CLASS(&outer, "two words");
    LOCKDEP_CLASS(&outer, "caf\xc3\xa9");
    LOCKDEP_CLASS(&outer, "line\n");
    LOCKDEP_CLASS(&outer, (const char *)0);
    LOCKDEP_CLASS(&inner, name_of(48));

    LOCKDEP_CLASS((pthread_mutex_t *)0, "nobody");
    LOCKDEP_CLASS((char *)&outer + 1, "beside");
    LOCKDEP_NESTED(&inner, 8);
    LOCKDEP_NESTED(&inner, -1L);
    LOCKDEP_DESTROYED(&outer, 0);
    LOCKDEP_DESTROYED(&outer, -1L);
    LOCKDEP_DESTROYED((void *)0, 8);

    if (lockdep_annotate_v1) {
        lockdep_annotate_v1(0, &outer, 0, 0);
        lockdep_annotate_v1(LOCKDEP_NO_ORDER_, &outer, 0, 0);
        lockdep_annotate_v1(1000, &outer, 0, "of a newer header");
    }
    pthread_mutex_lock(&outer);
    pthread_mutex_lock(&inner);
    pthread_mutex_unlock(&inner);
    pthread_mutex_unlock(&outer);
    return 0;
}
