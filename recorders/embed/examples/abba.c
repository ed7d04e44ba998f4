/* Two tasks that take two locks in opposite orders, one after the other, so that nothing hangs. */
#include <stdio.h>
#include <stdlib.h>

#define LOCKDEP_RECORD_CODE
#include "../lockdep_record.h"

/* A task, with the files for its trace and its places. */
struct task {
    struct ldr_task recorded;
    char trace_bytes[4096], places_bytes[4096];
    FILE *trace, *places;
};

static int put(void *file, const char *bytes, size_t size) {
    return fwrite(bytes, 1, size, (FILE *)file) == size ? 0 : -1;
}

/* Opens a file in the folder that `lockdep run` names, or in `lockdep-traces`. */
static FILE *open_file(const char *name, const char *end) {
    const char *folder = getenv("LOCKDEP_TRACES");
    char path[4096];
    snprintf(path, sizeof path, "%s/%s%s", folder ? folder : "lockdep-traces", name, end);
    FILE *file = fopen(path, "w");
    if (!file) {
        perror(path);
        exit(2);
    }
    return file;
}

static void begin(struct task *task, const char *name) {
    task->trace = open_file(name, "");
    task->places = open_file(name, ".places");
    ldr_begin(&task->recorded, task->trace_bytes, sizeof task->trace_bytes, put, task->trace);
    ldr_places(&task->recorded, task->places_bytes, sizeof task->places_bytes, put, task->places);
}

static void end(struct task *task) {
    ldr_end(&task->recorded);
    fclose(task->trace);
    fclose(task->places);
}

/* A lock of a kernel's own, which is recorded where it is taken. Real ones would wait in take and let others go on in give. */
#define take(task, lock) ldr_acquire(&(task)->recorded, lock, 0, LDR_W)
#define give(task, lock) ldr_release(&(task)->recorded, lock, 0)

static void pays(struct task *task) {
    take(task, "accounts");
    take(task, "journal");
    give(task, "journal");
    give(task, "accounts");
}

static void audits(struct task *task) {
    take(task, "journal");
    take(task, "accounts");
    give(task, "accounts");
    give(task, "journal");
}

int main(void) {
    static struct task first, second;
    begin(&first, "task-0001.csv");
    begin(&second, "task-0002.csv");
    pays(&first);
    audits(&second);
    end(&first);
    end(&second);
    return 0;
}
