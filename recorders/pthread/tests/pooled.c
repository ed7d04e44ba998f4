/* Two locks of a pool that change roles: their maker hands them over, and others take them in both orders. */
#include "common.h"

static pthread_mutex_t *links[2];

static void *under(void *parent) {
    pthread_mutex_t *child = links[parent == links[0]];
    NEST(parent, child);
    return NULL;
}

int main(void) {
    for (int i = 0; i < 2; i++)
        pthread_mutex_init(links[i] = malloc(sizeof *links[i]), NULL);
    for (int i = 0; i < 2; i++)
        in_thread(under, links[i]);
}
