/* Programs that are known to deadlock, each of which runs through: classics PROGRAM FOLDER. */
#include <pthread.h>
#include <stdio.h>
#include <stdlib.h>
#include <string.h>

#define LOCKDEP_RECORD_CODE
#include "../lockdep_record.h"

struct task {
    struct ldr_task recorded;
    char trace_bytes[256], places_bytes[256];
    FILE *trace, *places;
};

static const char *folder;
static struct task tasks[16];

static int put(void *file, const char *bytes, size_t size) {
    return fwrite(bytes, 1, size, (FILE *)file) == size ? 0 : -1;
}

static FILE *open_file(unsigned number, const char *end) {
    char path[4096];
    snprintf(path, sizeof path, "%s/task-%04u.csv%s", folder, number, end);
    FILE *file = fopen(path, "w");
    if (!file)
        exit(2);
    return file;
}

static struct ldr_task *begin_task(unsigned number) {
    struct task *task = &tasks[number];
    task->trace = open_file(number + 1, "");
    task->places = open_file(number + 1, ".places");
    ldr_begin(&task->recorded, task->trace_bytes, sizeof task->trace_bytes, put, task->trace);
    ldr_places(&task->recorded, task->places_bytes, sizeof task->places_bytes, put, task->places);
    return &task->recorded;
}

static void end_task(unsigned number) {
    ldr_end(&tasks[number].recorded);
    fclose(tasks[number].trace);
    fclose(tasks[number].places);
}

/* ---- Dining philosophers: each takes the fork on the left and then the one on the right. */

static const char *const forks[] = {"fork0", "fork1", "fork2"};

static void dine(struct ldr_task *task, const char *left, const char *right) {
    ldr_acquire(task, left, 0, LDR_W);  /* left */
    ldr_acquire(task, right, 0, LDR_W); /* right */
    ldr_release(task, left, 0);
    ldr_release(task, right, 0);
}

static void philosophers(void) {
    for (unsigned i = 0; i < 3; i++) {
        dine(begin_task(i), forks[i], forks[(i + 1) % 3]);
        end_task(i);
    }
}

/* The same with forks of one class, each of which has a number. */
static void numbered(void) {
    static const char *const numbered_forks[] = {"fork#1", "fork#2", "fork#3"};
    for (unsigned i = 0; i < 3; i++) {
        dine(begin_task(i), numbered_forks[i], numbered_forks[(i + 1) % 3]);
        end_task(i);
    }
}

/* The lower number comes first, so no two forks are taken both ways; one has no number. */
static void numbered_in_order(void) {
    dine(begin_task(0), "fork#1", "fork#2");
    end_task(0);
    dine(begin_task(1), "table", "fork#10");
    end_task(1);
}

/* ---- A bank: both accounts of a transfer are of one class, unless the lower one is taken first and told apart. */

static void transfer(struct ldr_task *task) {
    ldr_acquire(task, "account", 0, LDR_W); /* payer */
    ldr_acquire(task, "account", 0, LDR_W); /* payee */
    ldr_release(task, "account", 0);
    ldr_release(task, "account", 0);
}

static void transfer_in_order(struct ldr_task *task) {
    ldr_acquire(task, "account", 0, LDR_W);
    ldr_acquire(task, "account", 1, LDR_W);
    ldr_release(task, "account", 1);
    ldr_release(task, "account", 0);
}

static void bank(void) {
    transfer(begin_task(0));
    end_task(0);
}

static void good_bank(void) {
    transfer_in_order(begin_task(0));
    end_task(0);
}

/* ---- A reader that takes its lock again, behind a writer that waits. */

static void read_twice(struct ldr_task *task, unsigned mode) {
    ldr_acquire(task, "config", 0, mode); /* outer */
    ldr_acquire(task, "config", 0, mode); /* inner */
    ldr_release(task, "config", 0);
    ldr_release(task, "config", 0);
}

static void reader(void) {
    read_twice(begin_task(0), LDR_R);
    end_task(0);
}

static void good_reader(void) {
    read_twice(begin_task(0), LDR_RR);
    end_task(0);
}

/* ---- An interrupt that takes what the task holds. */

static void send(struct ldr_task *task) {
    ldr_acquire(task, "uart", 0, LDR_W); /* task */
    ldr_release(task, "uart", 0);
}

static void receive(struct ldr_task *task) {
    ldr_enter(task, LDR_HARDIRQ);
    ldr_acquire(task, "uart", 0, LDR_W); /* handler */
    ldr_release(task, "uart", 0);
    ldr_leave(task);
}

static void interrupt(void) {
    struct ldr_task *task = begin_task(0);
    send(task);
    receive(task);
    end_task(0);
}

/* The task turns interrupts on with the lock held. */
static void send_too_open(struct ldr_task *task) {
    ldr_off(task, LDR_HARDIRQ);
    ldr_acquire(task, "uart", 0, LDR_W);
    ldr_on(task, LDR_HARDIRQ); /* opens */
    ldr_release(task, "uart", 0);
}

static void opening(void) {
    struct ldr_task *task = begin_task(0);
    send_too_open(task);
    receive(task);
    end_task(0);
}

static void good_interrupt(void) {
    struct ldr_task *task = begin_task(0);
    ldr_off(task, LDR_HARDIRQ);
    send(task);
    ldr_on(task, LDR_HARDIRQ);
    receive(task);
    end_task(0);
}

/* ---- Tasks. */

static void *work(void *number) {
    unsigned which = *(unsigned *)number;
    struct ldr_task *task = begin_task(which);
    for (unsigned i = 0; i < 1000; i++) {
        ldr_acquire(task, "a", 0, LDR_W);
        ldr_acquire(task, "b", 0, LDR_R);
        ldr_release(task, "b", 0);
        ldr_release(task, "a", 0);
    }
    end_task(which);
    return NULL;
}

static void ten(void) {
    static unsigned numbers[10];
    pthread_t threads[10];
    for (unsigned i = 0; i < 10; i++) {
        numbers[i] = i;
        pthread_create(&threads[i], NULL, work, &numbers[i]);
    }
    for (unsigned i = 0; i < 10; i++)
        pthread_join(threads[i], NULL);
}

static void held(void) {
    ldr_acquire(begin_task(0), "a,b", 0, LDR_W);
    ldr_acquire(&tasks[0].recorded, "c", 1, LDR_W);
    end_task(0);
    ldr_acquire(begin_task(1), "a", 0, LDR_W);
    ldr_release(&tasks[1].recorded, "a", 0);
    end_task(1);
}

static void none(void) {
    begin_task(0);
    end_task(0);
}

/* A task that the program's end cuts off, after what was flushed. */
static void unended(void) {
    struct ldr_task *task = begin_task(0);
    ldr_acquire(task, "a", 0, LDR_W);
    ldr_flush(task);
    ldr_release(task, "a", 0);
    begin_task(1);
}

/* The longest names: there is no room for a number behind them. */
static void long_names(void) {
    struct ldr_task *task = begin_task(0);
    ldr_acquire(task, "0123456789012345678901234567890123456789012345678901234567890123", 0, LDR_W);
    end_task(0);
}

static void losses(void) {
    struct ldr_task *task = begin_task(0);
    ldr_acquire(task, "a", 0, LDR_W);
    ldr_release(task, "b", 0);
    ldr_release(task, "c", 0);
    ldr_acquire(task, "d e", 0, LDR_W);
    end_task(0);
}

static const struct {
    const char *name;
    void (*run)(void);
} programs[] = {
    {"philosophers", philosophers}, {"bank", bank},       {"good_bank", good_bank},
    {"numbered", numbered},         {"numbered_in_order", numbered_in_order},
    {"reader", reader},             {"good_reader", good_reader}, {"interrupt", interrupt},
    {"opening", opening},           {"good_interrupt", good_interrupt}, {"ten", ten},
    {"held", held},                 {"none", none},       {"unended", unended},
    {"long_names", long_names},     {"losses", losses},
};

int main(int argc, char **argv) {
    if (argc != 3)
        return 2;
    folder = argv[2];
    for (size_t i = 0; i < sizeof programs / sizeof programs[0]; i++)
        if (strcmp(programs[i].name, argv[1]) == 0) {
            programs[i].run();
            return 0;
        }
    return 2;
}
