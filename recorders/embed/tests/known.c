/* Makes the same calls at random for two tasks, one of which knows its steps: known FOLDER SEED. Their traces, in FOLDER/all and
   FOLDER/known, have to say the same. The status is 1 if the tasks differ in what they hold or leave out. */
#include <stdio.h>
#include <stdlib.h>

#define LOCKDEP_RECORD_CODE
#define LDR_KNOWN_STEPS
#include "../lockdep_record.h"

#define TASKS 60
#define CALLS 3000
#define STEPS 1024

static struct ldr_task all, known;
static char bytes[2][512], place_bytes[2][256];
static struct ldr_step steps[STEPS];
static uint64_t state;
static unsigned variety; /* of names: 2 to 7, and with them of places, subclasses and modes */

static unsigned below(unsigned bound) {
    state ^= state << 13;
    state ^= state >> 7;
    state ^= state << 17;
    return (unsigned)((state >> 32) % bound);
}

static int put(void *file, const char *from, size_t size) { return fwrite(from, 1, size, (FILE *)file) == size ? 0 : -1; }

static FILE *open_file(const char *folder, const char *kind, unsigned number, const char *end) {
    char path[4096];
    snprintf(path, sizeof path, "%s/%s/task-%04u.csv%s", folder, kind, number, end);
    FILE *file = fopen(path, "w");
    if (!file)
        exit(2);
    return file;
}

/* Takes or releases a lock. Mostly the newest is released, and now and then one that isn't held, or has an odd name. */
static void use_lock(bool is_taken) {
    static const char *const names[] = {"a", "b", "c,d", "e", "inode", "journal", "a b"};
    static const char *const places[] = {"one.c:1", "two.c:2"};
    const char *name = names[below(variety)], *place = places[variety > 3 ? below(2) : 0];
    unsigned sub = variety < 6 || below(8) ? 0 : 1;
    unsigned mode = variety < 5 || below(6) ? LDR_W : LDR_R | (below(2) ? LDR_TRY : 0);
    if (is_taken) {
        ldr_acquire_at(&all, name, sub, mode, place, "f");
        ldr_acquire_at(&known, name, sub, mode, place, "f");
        return;
    }
    if (all.held > 0 && below(10)) {
        name = all.locks[all.held - 1].name;
        sub = all.locks[all.held - 1].sub;
    }
    ldr_release(&all, name, sub);
    ldr_release(&known, name, sub);
}

static void interrupt(unsigned irq, unsigned which) {
    struct ldr_task *tasks[] = {&all, &known};
    for (unsigned i = 0; i < 2; i++)
        switch (which) {
        case 0: ldr_enter(tasks[i], irq); break;
        case 1: ldr_off(tasks[i], irq); break;
        case 2: ldr_on(tasks[i], irq); break;
        case 3: ldr_leave(tasks[i]); break;
        default: ldr_flush(tasks[i]);
        }
}

static bool is_same(void) {
    bool same = all.held == known.held && all.frame - all.frames == known.frame - known.frames;
    for (unsigned i = 0; i < all.held; i++)
        same = same && all.locks[i].name == known.locks[i].name && all.locks[i].sub == known.locks[i].sub;
    for (unsigned reason = 0; reason < LDR_REASONS; reason++)
        same = same && all.left[reason] == known.left[reason];
    return same;
}

static bool run_task(const char *folder, unsigned number) {
    FILE *files[] = {open_file(folder, "all", number, ""), open_file(folder, "all", number, ".places"),
                     open_file(folder, "known", number, ""), open_file(folder, "known", number, ".places")};
    ldr_begin(&all, bytes[0], sizeof bytes[0], put, files[0]);
    ldr_places(&all, place_bytes[0], sizeof place_bytes[0], put, files[1]);
    ldr_begin(&known, bytes[1], sizeof bytes[1], put, files[2]);
    ldr_places(&known, place_bytes[1], sizeof place_bytes[1], put, files[3]);
    ldr_known(&known, steps, number % 4 == 0 ? 1 + below(64) : STEPS);
    bool same = true;
    variety = 2 + number % 6;
    unsigned odd = number % 2 ? 0 : below(40); /* how many calls in a hundred are an interrupt's */
    for (unsigned i = 0; i < CALLS && same; i++) {
        if (below(100) < odd)
            interrupt(1 + below(2), below(6));
        else
            use_lock(all.held < 3 ? below(3) > 0 : below(3) == 0);
        same = is_same();
    }
    ldr_end(&all);
    ldr_end(&known);
    for (unsigned i = 0; i < 4; i++)
        fclose(files[i]);
    return same && known.events <= all.events;
}

int main(int argc, char **argv) {
    if (argc != 3)
        return 2;
    state = 88172645463325252u + strtoull(argv[2], NULL, 10);
    for (unsigned number = 1; number <= TASKS; number++)
        if (!run_task(argv[1], number))
            return 1;
    return 0;
}
