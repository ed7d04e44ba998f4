/* As stale.cc, in C, with variables that are declared before anything is done. */
#include <pthread.h>
#include <stdio.h>
#include <stdlib.h>

#define APART __attribute__((noinline))

struct old {
    long at;
    pthread_mutex_t m;
};

struct new {
    long at;
    pthread_mutex_t m;
};

struct tree {
    pthread_mutex_t m;
    struct tree *below;
    long at;
};

static volatile int some = 2;
static struct new *global;

APART static void take(pthread_mutex_t *m) {
    pthread_mutex_lock(m);
    pthread_mutex_unlock(m);
}

APART static void says(const char *type) { printf("stale.c:%s::m\n", type); }
APART static void *make(void) { return calloc(1, sizeof(struct old)); }
APART static void drop(void *p) { free(p); }
APART static int is_same(const void *a, const void *b) { return a == b; }

APART static void make_into(struct new **n) { *n = make(); }

static void here(void) {
    struct old *o;
    struct new *n;
    says("old");
    o = calloc(1, sizeof *o);
    take(&o->m);
    free(o);
    says("new");
    n = calloc(1, sizeof *n);
    take(&n->m);
    free(n);
}

static void called(void) {
    struct old *o;
    struct new *n;
    says("old");
    o = make();
    take(&o->m);
    drop(o);
    says("new");
    n = make();
    take(&n->m);
    some += is_same(o, n) ? 0 : 1;
    drop(n);
}

static void at_once(void) {
    struct old *o = make();
    struct new *n = NULL;
    drop(o);
    says("new");
    n = make();
    pthread_mutex_lock(&n->m);
    pthread_mutex_unlock(&n->m);
    some += is_same(o, n) ? 0 : 1;
    drop(n);
}

static void into(void) {
    struct old *o = make();
    struct new *n = NULL;
    drop(o);
    says("new");
    make_into(&n);
    take(&n->m);
    some += is_same(o, n) ? 0 : 1;
    drop(n);
}

static void global_one(void) {
    struct old *o = make();
    drop(o);
    says("new");
    global = make();
    take(&global->m);
    some += is_same(o, global) ? 0 : 1;
    drop(global);
}

APART static void take_any(void *p) { take(&((struct new *)p)->m); }

static void any(void) {
    struct old *o = make();
    void *n;
    drop(o);
    says("new");
    n = make();
    take_any(n);
    some += is_same(o, n) ? 0 : 1;
    drop(n);
}

APART static void drops(struct old *o) {
    struct new *n;
    drop(o);
    says("new");
    n = make();
    take(&n->m);
    some += is_same(o, n) ? 0 : 1;
    drop(n);
}

static void drops_below(void) {
    struct old *o = make();
    drops(o);
    some += is_same(o, global) ? 0 : 1;
}

/* A function that calls itself was running, but not this call of it. */
APART static int grows(struct tree *t, int depth) {
    if (depth < 2) {
        t->below = calloc(1, sizeof *t);
        t->below->at = depth;
        some += grows(t->below, depth + 1) > 9;
    }
    says("tree");
    take(&t->m);
    return t->at > some;
}

static void tree(void) { some += grows(calloc(1, sizeof(struct tree)), 0) > 9; }

static void rounds(void) {
    struct old *o;
    struct new *n;
    int i, all = some;
    for (i = 0; i < all; i++) {
        if (i == 0)
            says("old");
        o = make();
        take(&o->m);
        drop(o);
        if (i == 0)
            says("new");
        n = make();
        take(&n->m);
        drop(n);
    }
}

/* A member that still points there, and what another function has made and keeps. */

struct server {
    struct old *current;
    int count;
};

static void *kept[4];

APART static int open_new(void) {
    kept[0] = make();
    return 0;
}

APART static void take_kept(int which) { take(&((struct new *)kept[which])->m); }

APART static void serve(struct server *server) {
    int which;
    server->current = make();
    says("old");
    take(&server->current->m);
    free(server->current);
    which = open_new();
    says("new");
    take_kept(which);
    drop(kept[which]);
    server->count++;
}

static void members(void) {
    struct server server = {NULL, some};
    serve(&server);
    some = server.count;
}

int main(void) {
    here();
    called();
    at_once();
    into();
    global_one();
    any();
    drops_below();
    tree();
    members();
    rounds(); /* the last, since a compiler may have its first round apart */
    return 0;
}
