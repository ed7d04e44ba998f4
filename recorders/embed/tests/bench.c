/* What an operation costs, in processor time: the least of eight rounds, without places, with them, and by known steps. */
#include <stdio.h>
#include <time.h>

#define LOCKDEP_RECORD_CODE
#define LDR_KNOWN_STEPS
#include "../lockdep_record.h"

#define ROUNDS 8
#define TURNS 200000

static struct ldr_task task;
static char bytes[4096], place_bytes[4096];
static struct ldr_step steps[256];

static int put(void *cookie, const char *from, size_t size) {
    (void)cookie, (void)from, (void)size;
    return 0;
}

static double now(void) {
    struct timespec time;
    clock_gettime(CLOCK_PROCESS_CPUTIME_ID, &time);
    return (double)time.tv_sec * 1e9 + (double)time.tv_nsec;
}

/* Two locks, one within the other: four operations. */
static double round_of(bool has_places, bool has_steps) {
    ldr_begin(&task, bytes, sizeof bytes, put, NULL);
    if (has_places)
        ldr_places(&task, place_bytes, sizeof place_bytes, put, NULL);
    if (has_steps)
        ldr_known(&task, steps, sizeof steps / sizeof *steps);
    double start = now();
    for (unsigned i = 0; i < TURNS; i++) {
        ldr_acquire(&task, "inode", 0, LDR_W);
        ldr_acquire(&task, "journal_lock", 0, LDR_W);
        ldr_release(&task, "journal_lock", 0);
        ldr_release(&task, "inode", 0);
    }
    return (now() - start) / (4.0 * TURNS);
}

static void print_least(const char *how, bool has_places, bool has_steps) {
    double least = 0;
    for (int i = 0; i < ROUNDS; i++) {
        double took = round_of(has_places, has_steps);
        if (i == 0 || took < least)
            least = took;
    }
    printf("an operation %s\trecorded\t%.1f\tns\n", how, least);
}

int main(void) {
    print_least("without places", false, false);
    print_least("with places", true, false);
    print_least("by a known step", true, true);
    printf("a task without its buffers\trecorded\t%zu\tbytes\n", sizeof(struct ldr_task));
    return 0;
}
