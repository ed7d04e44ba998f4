/* A program of many small ones, its rows: `PROGRAM` lists them, each with a tab and what has to be found in a recording of it, and `PROGRAM NAME`
   runs one, in a process of its own. Before a row begins, nothing takes a lock, not even one inside the C library. */
#include "common.h"

struct row {
    const char *name, *found;
    void (*run)(void);
};

#define ROW(name, found)                                                                                                                  \
    static void run_##name(void);                                                                                                         \
    static const struct row row_##name = {#name, found, run_##name};                                                                      \
    static const struct row *const listed_##name __attribute__((used, section("rows"))) = &row_##name;                                    \
    static void run_##name(void)
#define WRONG(name, found) ROW(name, found)
#define RIGHT(name) ROW(name, "clean")

extern const struct row *const __start_rows[], *const __stop_rows[];

static inline void send(int number) { kill(getpid(), number); }
static inline void with_blocked(int number, pthread_mutex_t *lock) { block(number); with(lock); unblock(number); }
static inline sigset_t nothing(void) { sigset_t set; sigemptyset(&set); return set; }

/* The words of the command line, for a row that runs the program again. */
static char **words;

static int list(void) {
    for (const struct row *const *row = __start_rows; row < __stop_rows; row++)
        printf("%s\t%s\n", (*row)->name, (*row)->found);
    return 0;
}

int main(int count, char **given) {
    if (count < 2)
        return list();
    words = given;
    for (const struct row *const *row = __start_rows; row < __stop_rows; row++)
        if (strcmp((*row)->name, given[1]) == 0) {
            (*row)->run();
            return 0;
        }
    return 2;
}
