/* SQLite with custom mutexes, as a runtime may have them: its interface for that is told what to call. Three threads read
   and write one database, each through its own connection. */
#include <pthread.h>
#include <sqlite3.h>
#include <stdio.h>
#include <stdlib.h>

#define LOCKDEP_RECORD_CODE
#include "../lockdep_record.h"

#define THREADS 3

/* A thread, and what it is doing, which is all that is known about the place where SQLite takes a mutex. */
struct task {
    struct ldr_task recorded;
    char trace_bytes[4096], places_bytes[4096];
    FILE *trace, *places;
    const char *place, *doing;
};

static _Thread_local struct task *self;
static struct task tasks[THREADS + 1];
static const char *folder;

#define do_it(call) (self->place = __FILE__ ":" LDR_TEXT(__LINE__), self->doing = #call, call)

/* ---- Mutexes. One that its holder takes again is one acquisition. */

struct sqlite3_mutex {
    pthread_mutex_t mutex;
    const char *name;
    _Atomic(struct task *) holder; /* which only the holder itself finds to be itself */
    unsigned level;
};

static const char *const names[] = {"fast", "connection", "main", "mem",  "open", "prng", "lru",
                                    "pmem", "app1",       "app2", "app3", "vfs1", "vfs2", "vfs3"};
#define NAMES (sizeof names / sizeof names[0])
#define MADE 2u /* types below this one are made by each call */

static sqlite3_mutex statics[NAMES];

static int init(void) { return SQLITE_OK; }

static int end(void) { return SQLITE_OK; }

static void make(sqlite3_mutex *made, unsigned type) {
    pthread_mutexattr_t attributes;
    pthread_mutexattr_init(&attributes);
    pthread_mutexattr_settype(&attributes, PTHREAD_MUTEX_RECURSIVE);
    pthread_mutex_init(&made->mutex, &attributes);
    pthread_mutexattr_destroy(&attributes);
    made->name = names[type];
    made->holder = NULL;
    made->level = 0;
}

static sqlite3_mutex *alloc(int type) {
    if (type < 0 || (size_t)type >= NAMES)
        return NULL;
    if ((unsigned)type >= MADE)
        return &statics[type];
    sqlite3_mutex *made = malloc(sizeof *made);
    if (made)
        make(made, (unsigned)type);
    return made;
}

static void forget(sqlite3_mutex *mutex) {
    pthread_mutex_destroy(&mutex->mutex);
    free(mutex);
}

/* Records an acquisition, unless this thread holds the mutex already. */
static void note(sqlite3_mutex *mutex, unsigned mode) {
    if (mutex->holder != self)
        ldr_acquire_at(&self->recorded, mutex->name, 0, mode, self->place, self->doing);
}

static void hold(sqlite3_mutex *mutex) {
    mutex->holder = self;
    mutex->level++;
}

static void enter(sqlite3_mutex *mutex) {
    note(mutex, LDR_W); /* before the wait */
    pthread_mutex_lock(&mutex->mutex);
    hold(mutex);
}

static int try(sqlite3_mutex *mutex) {
    if (pthread_mutex_trylock(&mutex->mutex) != 0)
        return SQLITE_BUSY;
    note(mutex, LDR_W | LDR_TRY);
    hold(mutex);
    return SQLITE_OK;
}

static void leave(sqlite3_mutex *mutex) {
    if (--mutex->level == 0) {
        mutex->holder = NULL;
        ldr_release(&self->recorded, mutex->name, 0);
    }
    pthread_mutex_unlock(&mutex->mutex);
}

/* ---- Threads. */

static int put(void *file, const char *bytes, size_t size) {
    return fwrite(bytes, 1, size, (FILE *)file) == size ? 0 : -1;
}

static FILE *open_file(unsigned number, const char *ending) {
    char path[4096];
    snprintf(path, sizeof path, "%s/task-%04u.csv%s", folder, number, ending);
    FILE *file = fopen(path, "w");
    if (!file) {
        perror(path);
        exit(2);
    }
    return file;
}

static void begin_task(struct task *task) {
    unsigned number = (unsigned)(task - tasks) + 1;
    self = task;
    task->trace = open_file(number, "");
    task->places = open_file(number, ".places");
    ldr_begin(&task->recorded, task->trace_bytes, sizeof task->trace_bytes, put, task->trace);
    ldr_places(&task->recorded, task->places_bytes, sizeof task->places_bytes, put, task->places);
}

static void end_task(void) {
    ldr_end(&self->recorded);
    fclose(self->trace);
    fclose(self->places);
}

static void must(int result) {
    if (result != SQLITE_OK && result != SQLITE_LOCKED && result != SQLITE_BUSY) {
        fprintf(stderr, "sqlite: %s: %s\n", self->doing, sqlite3_errstr(result));
        exit(2);
    }
}

#define DATABASE "file:accounts?mode=memory&cache=shared"

static sqlite3 *open_database(void) {
    sqlite3 *database;
    must(do_it(sqlite3_open_v2(DATABASE, &database, SQLITE_OPEN_READWRITE | SQLITE_OPEN_CREATE | SQLITE_OPEN_URI, NULL)));
    return database;
}

static void *run(void *task) {
    begin_task(task);
    sqlite3 *database = open_database();
    for (int i = 0; i < 50; i++) {
        must(do_it(sqlite3_exec(database, "INSERT INTO account VALUES (1, 10)", NULL, NULL, NULL)));
        must(do_it(sqlite3_exec(database, "SELECT sum(amount) FROM account", NULL, NULL, NULL)));
    }
    must(do_it(sqlite3_close(database)));
    end_task();
    return NULL;
}

int main(int argc, char **argv) {
    static const sqlite3_mutex_methods methods = {init, end, alloc, forget, enter, try, leave, NULL, NULL};
    pthread_t threads[THREADS];
    folder = getenv("LOCKDEP_TRACES");
    if (!folder)
        folder = argc > 1 ? argv[1] : "lockdep-traces";
    for (unsigned type = 0; type < NAMES; type++)
        make(&statics[type], type);
    begin_task(&tasks[THREADS]);
    if (sqlite3_config(SQLITE_CONFIG_MUTEX, &methods) != SQLITE_OK)
        return 2;
    sqlite3 *database = open_database();
    must(do_it(sqlite3_exec(database, "CREATE TABLE account (owner, amount)", NULL, NULL, NULL)));
    for (int i = 0; i < THREADS; i++)
        pthread_create(&threads[i], NULL, run, &tasks[i]);
    for (int i = 0; i < THREADS; i++)
        pthread_join(threads[i], NULL);
    must(do_it(sqlite3_close(database)));
    end_task();
    return 0;
}
