/* Locks in small pieces of memory, and in memory that the program maps itself. Of each kind there are two from one place, and their
   order with a static mutex is another for the second one: only classes can find it. What is closed, freed or unmapped is forgotten. */
#include "common.h"
#include <sys/mman.h>

struct spinning {
    pthread_spinlock_t lock;
};

struct once {
    pthread_once_t control;
};

struct mapped {
    char text[100];
    pthread_mutex_t lock;
};

static pthread_mutex_t a = PTHREAD_MUTEX_INITIALIZER, b = PTHREAD_MUTEX_INITIALIZER, c = PTHREAD_MUTEX_INITIALIZER;

static APART struct spinning *new_spinning(void) {
    struct spinning *s = malloc(sizeof *s);
    s->lock = 1; /* as pthread_spin_init leaves it */
    return s;
}

static APART struct once *new_once(void) { return calloc(1, sizeof(struct once)); }

static APART struct mapped *new_mapped(void) {
    return mmap(NULL, sizeof(struct mapped), PROT_READ | PROT_WRITE, MAP_PRIVATE | MAP_ANONYMOUS, -1, 0);
}

static void take_b(void) { TAKE(&b); }

static void take_nothing(void) {}

static void first(struct spinning *s, struct once *o, struct mapped *m) {
    pthread_mutex_lock(&a);
    pthread_spin_lock(&s->lock);
    pthread_spin_unlock(&s->lock);
    pthread_mutex_unlock(&a);
    pthread_mutex_lock(&b);
    pthread_once(&o->control, take_nothing);
    pthread_mutex_unlock(&b);
    NEST(&c, &m->lock);
}

static void second(struct spinning *s, struct once *o, struct mapped *m) {
    pthread_spin_lock(&s->lock);
    TAKE(&a);
    pthread_spin_unlock(&s->lock);
    pthread_once(&o->control, take_b);
    NEST(&m->lock, &c);
}

int main(int argc, char **argv) {
    (void)argv;
    for (int i = 0; i < argc + 1; i++) {
        struct spinning *s = new_spinning();
        struct once *o = new_once();
        struct mapped *m = new_mapped();
        (i == 0 ? first : second)(s, o, m);
        free(s);
        free(o);
        munmap(m, sizeof *m);
    }
}
