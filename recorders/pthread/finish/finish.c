/* Makes traces of what the preload library left in FOLDER/raw:

     finish FOLDER VERSION [FRAMES [history]]

   FOLDER/task-NNNN.csv        the trace of one thread, in version 2 of the format
   FOLDER/task-NNNN.csv.places for each of its records, where the call came from
   FOLDER/objects              the same traces with the names of single locks
   FOLDER/classes              for each class's name, where that is
   FOLDER/classes.places       by which callers it is made, if it is known by them
   FOLDER/lives                which thread started and joined which, if there was room for all of that
   FOLDER/weak                 which acquisitions are by waits that give up, if any are
   FOLDER/breaches             what a program did against what it says of its locks, if it did
   FOLDER/breaches.places      where, in two places for each of these
   FOLDER/signals              what signals' handlers may interrupt, if the program has any: a set of traces for each one that took a lock
   FOLDER/summary.json         what was recorded, and what was left out, by codes: summary.c

   A place is named by FRAMES callers, 3 if it isn't given. With the word `history` there also are, for each process:

   FOLDER/history/process-NNNN.csv        what its threads did, in the order in which it came
   FOLDER/history/process-NNNN.csv.places for each of its records, where the call came from
   FOLDER/history/process-NNNN.left-out   which locks aren't in it, and why, if there are any */
#include "finish.h"

#include <errno.h>
#include <string.h>
#include <unistd.h>

#define DEFAULT_FRAMES 3
#define HISTORY "history"

void refuse(const char *what, const char *name) {
    fprintf(stderr, "finish: %s %s\n", name, what);
    exit(2);
}

void refuse_file(const char *what, const char *path) {
    fprintf(stderr, "finish: %s %s: %s\n", path, what, strerror(errno));
    exit(2);
}

void *checked(void *p) {
    if (!p) {
        fputs("finish: out of memory\n", stderr);
        exit(2);
    }
    return p;
}

/* The folder in which this program's own folder lies: that of the recorder. */
static void find_recorder(char *folder, size_t room) {
    ssize_t length = readlink("/proc/self/exe", folder, room - 1);
    folder[length > 0 ? length : 0] = 0;
    for (int i = 0; i < 2; i++) {
        char *slash = strrchr(folder, '/');
        if (slash)
            *slash = 0;
    }
}

static int number_of(const char *text, int most) {
    char *end;
    long number = strtol(text, &end, 10);
    return *text && !*end && number >= 1 && number <= most ? (int)number : 0;
}

int main(int argc, char **argv) {
    frames = argc > 2 ? number_of(argv[2], RAW_FRAMES) : DEFAULT_FRAMES;
    bool with_history = argc == 4 && strcmp(argv[3], HISTORY) == 0;
    if (argc < 2 || argc > 3 + with_history || !frames) {
        fprintf(stderr, "usage: finish FOLDER [FRAMES [" HISTORY "]], with FRAMES 1 to %d\n", RAW_FRAMES);
        return 2;
    }
    char recorder[4096];
    find_recorder(recorder, sizeof recorder);
    read_wrappers(recorder);
    read_arenas(argv[1]);
    read_types();
    find_arrays();
    spread_types();
    find_shared();
    find_joins();
    name_objects();
    write_traces(argv[1]);
    write_sets(argv[1]);
    write_lives(argv[1]);
    find_breaches();
    write_breaches(argv[1]);
    write_classes(argv[1]);
    if (with_history)
        write_histories(argv[1]);
    write_summary(argv[1]);
    forget_looks();
    become_look();
    return 0;
}
