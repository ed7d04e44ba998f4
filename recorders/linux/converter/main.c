/* The command line. */
#define _GNU_SOURCE
#include "converter.h"

#include <errno.h>
#include <sys/stat.h>

static const char usage[] = "usage: convert [-o FOLDER] [--version-1] [--repeats] [--full-names] [--only RE] [--only-module NAME] [--keys N] "
                            "[--most-traces N] [--symbols FILE] [--vmlinux FILE] [--ko FILE]... RAW";

static bool takes_value(const char *word) {
    static const char *const all[] = {"-o", "--only", "--only-module", "--symbols", "--keys", "--most-traces", "--vmlinux", "--ko"};
    for (size_t number = 0; number < sizeof all / sizeof *all; number++)
        if (!strcmp(word, all[number]))
            return true;
    return false;
}

static void set_only(const char *expression) {
    char why[256];
    int fault = regcomp(&options.only, expression, REG_EXTENDED | REG_NOSUB);
    if (fault) {
        regerror(fault, &options.only, why, sizeof why);
        refuse("--only", why);
    }
    options.is_only = true;
}

static unsigned long number_of(const char *option, const char *text) {
    char *end;
    unsigned long number = strtoul(text, &end, 10);
    if (*text < '0' || *text > '9' || *end || !number)
        refuse(option, "needs a number from 1");
    return number;
}

static void read_options(int count, char **words) {
    for (int number = 1; number < count; number++) {
        const char *word = words[number], *next = words[number + 1];
        bool has_value = takes_value(word);
        if (has_value && !next)
            refuse(word, "needs a value");
        if (!strcmp(word, "-o"))
            options.folder = next;
        else if (!strcmp(word, "--only"))
            set_only(next);
        else if (!strcmp(word, "--only-module"))
            options.only_module = next;
        else if (!strcmp(word, "--keys"))
            options.keys = number_of(word, next);
        else if (!strcmp(word, "--most-traces"))
            options.most_traces = number_of(word, next);
        else if (!strcmp(word, "--symbols"))
            options.symbols = next;
        else if (!strcmp(word, "--vmlinux") || !strcmp(word, "--ko"))
            ; /* of `lines`, which comes afterwards */
        else if (!strcmp(word, "--version-1"))
            options.version = 1;
        else if (!strcmp(word, "--full-names"))
            options.full_names = true;
        else if (!strcmp(word, "--repeats"))
            options.repeats = true;
        else if (*word == '-' || options.raw)
            refuse(word, usage);
        else
            options.raw = word;
        number += has_value;
    }
    if (!options.raw)
        refuse("RAW", usage);
}

static void make_folder(void) {
    if (mkdir(options.folder, 0777) && errno != EEXIST)
        refuse(options.folder, "can't be made");
}

int main(int count, char **words) {
    read_options(count, words);
    load_cpus();
    compare_control();
    load_symbols();
    learn();
    choose_keys();
    convert();
    make_folder();
    write_traces();
    write_classes();
    note_incomplete();
    note_left_out();
    write_json();
    FILE *summary = open_file("SUMMARY");
    tell_summary(summary);
    tell_takers(summary);
    tell_reasons(summary);
    close_file(summary);
    keep_files();
    tell_summary(stdout);
    if (fflush(stdout) || ferror(stdout))
        refuse("standard output", "can't be written");
    return tell_faults();
}
