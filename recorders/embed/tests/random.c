/* Makes calls at random, in whatever order, for many tasks: random FOLDER SEED. Each trace is one that lockdep accepts. */
#include <stdio.h>
#include <stdlib.h>

#define LOCKDEP_RECORD_CODE
#include "../lockdep_record.h"

#define TASKS 300
#define CALLS 3000

static struct ldr_task task;
static char bytes[512], place_bytes[256];
static uint64_t state;
static unsigned refuses; /* one put in so many fails; none if it is 0 */

static unsigned below(unsigned bound) {
    state ^= state << 13;
    state ^= state >> 7;
    state ^= state << 17;
    return (unsigned)((state >> 32) % bound);
}

/* Names, some of which the format refuses. The first ones are drawn most often. */
static const char *name(void) {
    static const char *const names[] = {"a", "b", "c,d", "\"", "e", "f", "inode", "", "a b", "\x80", NULL, "aa"};
    return names[below(below(3) ? 6 : sizeof names / sizeof names[0])];
}

static unsigned small_number(unsigned usual, unsigned more) { return below(20) ? below(usual) : below(more); }

static void call(unsigned which);

static int put(void *file, const char *from, size_t size) {
    if (below(30) == 0)
        for (unsigned i = 0; i < 4; i++)
            call(below(100)); /* an interrupt, with or without its entry */
    if (refuses > 0 && below(refuses) == 0)
        return 1;
    return fwrite(from, 1, size, (FILE *)file) == size ? 0 : -1;
}

static void call(unsigned which) {
    if (which < 40)
        ldr_acquire(&task, name(), small_number(2, 9), small_number(3, 9));
    else if (which < 76)
        ldr_release(&task, name(), small_number(2, 9));
    else if (which < 83)
        ldr_enter(&task, small_number(2, 4) + 1);
    else if (which < 91)
        ldr_leave(&task);
    else if (which < 95)
        ldr_off(&task, small_number(2, 4) + 1);
    else if (which < 99)
        ldr_on(&task, small_number(2, 4) + 1);
    else
        ldr_flush(&task);
}

static FILE *open_file(const char *folder, unsigned number, const char *end) {
    char path[4096];
    snprintf(path, sizeof path, "%s/task-%04u.csv%s", folder, number, end);
    FILE *file = fopen(path, "w");
    if (!file)
        exit(2);
    return file;
}

static void run_task(const char *folder, unsigned number) {
    FILE *trace = open_file(folder, number, ""), *places = open_file(folder, number, ".places");
    refuses = below(4) ? 0 : 200;
    ldr_begin(&task, bytes, below(30) ? LDR_ROOM + below(sizeof bytes - LDR_ROOM) : below(LDR_ROOM), put, trace);
    ldr_places(&task, place_bytes, 1 + below(sizeof place_bytes), put, places);
    /* In half of the tasks little is released, so that many locks are held. */
    unsigned first = number % 2, count = CALLS;
    while (count-- > 0) {
        unsigned which = below(100);
        if (first && which >= 40 && which < 76 && below(3))
            which = 0;
        call(which);
    }
    if (below(5))
        ldr_end(&task);
    else
        ldr_flush(&task);
    fclose(trace);
    fclose(places);
}

int main(int argc, char **argv) {
    if (argc != 3)
        return 2;
    state = 88172645463325252u + strtoull(argv[2], NULL, 10);
    for (unsigned number = 1; number <= TASKS; number++)
        run_task(argv[1], number);
    return 0;
}
