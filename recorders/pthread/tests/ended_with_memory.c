/* Memory that is given back while a lock in it is held: the hold ends with it. A lock whose memory was made larger where it is stays held,
   and so does one in memory that couldn't be made larger. */
#include "common.h"
#include <stdint.h>
#include <sys/mman.h>
static pthread_mutex_t a = PTHREAD_MUTEX_INITIALIZER;
#define PAGES 16384

static APART void take_a(void) { TAKE(&a); }

struct object {
    char before[200];
    pthread_mutex_t lock, second;
    char after[200];
};

static APART struct object *with_lock(void) {
    struct object *object = calloc(1, sizeof *object);
    pthread_mutex_lock(&object->lock);
    return object;
}

static APART void freed(void) {
    struct object *object = with_lock();
    free(object);
    take_a();
}

static APART void freed_with_two(void) {
    struct object *object = with_lock();
    pthread_mutex_lock(&object->second);
    free(object);
    take_a();
}

static APART void *next_to(void) { return calloc(1, sizeof(struct object)); }

static APART void moved(void) {
    struct object *object = with_lock();
    void *volatile other = next_to();
    uintptr_t was = (uintptr_t)object;
    struct object *larger = realloc(object, 100 * sizeof *object);
    if ((uintptr_t)larger == was)
        abort();
    take_a();
    free(larger);
    free(other);
}

static APART void stays(void) {
    struct object *object = with_lock();
    uintptr_t was = (uintptr_t)object;
    object = realloc(object, sizeof *object - 100);
    if ((uintptr_t)object != was || realloc(object, PTRDIFF_MAX) != NULL)
        abort();
    take_a();
    pthread_mutex_unlock(&object->lock);
    take_a();
    free(object);
}

static APART void unmapped(void) {
    pthread_mutex_t *lock = mmap(NULL, PAGES, PROT_READ | PROT_WRITE, MAP_PRIVATE | MAP_ANONYMOUS, -1, 0);
    pthread_mutex_lock(lock);
    munmap(lock, PAGES);
    take_a();
}

static APART void mapped_over(void) {
    pthread_mutex_t *lock = mmap(NULL, PAGES, PROT_READ | PROT_WRITE, MAP_PRIVATE | MAP_ANONYMOUS, -1, 0);
    pthread_mutex_lock(lock);
    mmap(lock, PAGES, PROT_READ | PROT_WRITE, MAP_PRIVATE | MAP_ANONYMOUS | MAP_FIXED, -1, 0);
    take_a();
    munmap(lock, PAGES);
}

int main(void) {
    freed();
    freed_with_two();
    moved();
    stays();
    unmapped();
    mapped_over();
}
