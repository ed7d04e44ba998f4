/* The locks of a history. One that lies where another one has lain is another lock. What isn't well formed of a lock leaves it out as a whole: it was
   taken while another thread had it, or released by one that hadn't. */
#include "history.h"

#include <string.h>

uint32_t new_lock(struct locks *l, enum lock_kind kind) {
    struct lock new = {.kind = kind};
    PUSH(l->locks, l->count, new);
    return (uint32_t)l->count;
}

/* What was named before it was used may be of any kind. */
uint32_t lock_at(struct locks *l, uint64_t address, enum lock_kind kind) {
    uint32_t *number = value_at(&l->by_address, address);
    if (!*number || (l->locks[*number - 1].is_used && l->locks[*number - 1].kind != kind))
        *number = new_lock(l, kind);
    l->locks[*number - 1].kind = kind;
    return *number;
}

uint32_t own_lock_of(struct locks *l, uint32_t task, uint32_t object) {
    uint32_t number = new_lock(l, LOCK_THREAD);
    l->locks[number - 1].task = task;
    be_object(l, number, object);
    return number;
}

/* ---- Holders. */

static struct holder *holder_of(struct lock *lock, uint32_t task) {
    for (size_t i = 0; i < lock->holder_count; i++)
        if (lock->holders[i].task == task)
            return &lock->holders[i];
    return NULL;
}

static bool is_held_by_others(const struct lock *lock, uint32_t task, bool is_writer) {
    for (size_t i = 0; i < lock->holder_count; i++)
        if (lock->holders[i].task != task && (is_writer || lock->holders[i].is_writer))
            return true;
    return false;
}

enum taken take_lock(struct lock *lock, uint32_t task, bool is_writer) {
    struct holder *holder = holder_of(lock, task);
    lock->is_used = true;
    bool is_raised = holder && is_writer && !holder->is_writer;
    if (is_held_by_others(lock, task, is_writer) || is_raised)
        lock->fault = FAULT_TAKEN_BY_ANOTHER;
    if (lock->fault)
        return TAKEN_NOT;
    if (holder) {
        holder->count++;
        return TAKEN_AGAIN;
    }
    struct holder new = {task, 1, is_writer};
    PUSH(lock->holders, lock->holder_count, new);
    return TAKEN_FIRST;
}

bool release_lock(struct lock *lock, uint32_t task) {
    struct holder *holder = holder_of(lock, task);
    lock->is_used = true;
    if (!holder && !lock->fault)
        lock->fault = FAULT_NOT_HELD;
    if (lock->fault || --holder->count)
        return false;
    *holder = lock->holders[--lock->holder_count];
    return true;
}

/* ---- Names. */

/* Nobody has it, or only threads that have ended with it. */
static bool is_free(const struct lock *lock, const struct threads *t) {
    for (size_t i = 0; i < lock->holder_count; i++)
        if (!t->tasks[lock->holders[i].task - 1].is_over)
            return false;
    return true;
}

void be_object(struct locks *l, uint32_t number, uint32_t object) {
    l->locks[number - 1].object = object;
    if (object)
        *value_at(&l->by_object, object) = number;
}

/* A lock that is met first by several threads at once is named by each before any of them takes it, and is one lock. */
void name_lock_at(struct locks *l, const struct threads *t, uint64_t address, uint32_t object, bool is_another) {
    uint32_t *number = value_at(&l->by_address, address);
    const struct lock *there = *number ? &l->locks[*number - 1] : NULL;
    if (!there || (is_another && there->is_used && is_free(there, t)))
        *number = new_lock(l, LOCK_PLAIN);
    be_object(l, *number, object);
}

static void tell_lock(char *text, size_t room, const struct lock *lock, const struct threads *t, struct arena *a, uint32_t process) {
    if (class_of(a, lock->object))
        tell_object(text, room, key_of_object(a, process, lock->object));
    else if (lock->kind == LOCK_THREAD)
        snprintf(text, room, "thread:%.*s", (int)(room - sizeof "thread:"), t->tasks[lock->task - 1].name);
    else
        snprintf(text, room, "%s", lock->kind == LOCK_ONCE ? "once" : "lock");
}

struct names {
    char (*names)[MAX_OBJECT_NAME + 1]; /* a table of those that are given, with room for a power of two */
    uint32_t *counts;                   /* of each how many locks were called so */
    size_t room;
};

static size_t place_of(const struct names *n, const char *name) {
    size_t i = hash_of(name) & (n->room - 1);
    while (n->names[i][0] && strcmp(n->names[i], name) != 0)
        i = (i + 1) & (n->room - 1);
    return i;
}

/* The first lock of a name has it, and the further ones have a number behind it. A name that is too long then is cut. */
static void give_name(struct names *n, struct lock *lock, const char *name) {
    size_t own = place_of(n, name), at = own;
    char mark[16] = "";
    snprintf(lock->name, sizeof lock->name, "%s", name);
    while (n->names[at][0]) {
        snprintf(mark, sizeof mark, "+%u", ++n->counts[own] + 1);
        snprintf(lock->name, sizeof lock->name, "%.*s%s", (int)(MAX_OBJECT_NAME - strlen(mark)), name, mark);
        at = place_of(n, lock->name);
    }
    strcpy(n->names[at], lock->name);
}

/* Of all that are used, so that those which are left out can be told as well. */
void give_names(struct locks *l, const struct threads *t, struct arena *a, uint32_t process) {
    struct names n = {.room = 64};
    char name[MAX_OBJECT_NAME + 1];
    while (n.room < 2 * (l->count + 1))
        n.room *= 2;
    n.names = checked(calloc(n.room, sizeof *n.names));
    n.counts = checked(calloc(n.room, sizeof *n.counts));
    for (size_t i = 0; i < l->count; i++)
        if (l->locks[i].is_used) {
            tell_lock(name, sizeof name, &l->locks[i], t, a, process);
            give_name(&n, &l->locks[i], name);
        }
    free(n.names);
    free(n.counts);
}

void forget_locks(struct locks *l) {
    for (size_t i = 0; i < l->count; i++)
        free(l->locks[i].holders);
    free(l->locks);
    forget_map(&l->by_address);
    forget_map(&l->by_object);
}
