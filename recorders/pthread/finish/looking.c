/* What the files show that were loaded: this program becomes `look` of the recorder when the traces are made, so that no other one has to be started
   for them. Whoever starts this one with LOCKDEP_LOOK, the path of `look`, reads on standard output what `look --all` writes of the files that the
   summary calls loaded. If there are too many for a command, nothing is written. */
#include "finish.h"

#include <string.h>
#include <unistd.h>

bool is_loaded_file(const struct module *m) { return m->path[0] == '/' && !strchr(m->path, '\n'); }

void become_look(void) {
    const char *look = getenv("LOCKDEP_LOOK");
    const char **words = look ? checked(calloc(module_count + 3, sizeof *words)) : NULL;
    if (!words)
        return;
    size_t count = 0;
    words[count++] = look;
    words[count++] = "--all";
    for (size_t i = 0; i < module_count; i++)
        if (is_loaded_file(&modules[i]))
            words[count++] = modules[i].path;
    fflush(NULL);
    execv(look, (char **)words);
    free(words);
}
