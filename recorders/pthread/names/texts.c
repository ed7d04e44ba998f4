/* The text of a lock's type: the innermost class on the way to it that isn't a lock itself, and the member. */
#include "names.h"

#include <ctype.h>

/* ---- Classes that are called locks. A word begins after an underscore, at a capital letter after one that is none, and at the last of several
   capital letters before a small one. */

static bool is_one_of(const char *word, size_t length, const char *const *words) {
    for (; *words; words++)
        if (strlen(*words) == length && strncasecmp(word, *words, length) == 0)
            return true;
    return false;
}

static bool begins_word(const char *name, size_t at, size_t length) {
    bool is_capital = isupper((unsigned char)name[at]), is_after_capital = isupper((unsigned char)name[at - 1]);
    return name[at - 1] == '_' || (is_capital && (!is_after_capital || (at + 1 < length && islower((unsigned char)name[at + 1]))));
}

/* The bytes of a name before its last word, and that word. */
struct words {
    const char *name;
    size_t before, length;
};

static void cut_last_word(struct words *words) {
    words->length = words->before;
    while (words->length > 0 && words->name[words->length - 1] == '_')
        words->length--;
    words->before = words->length;
    while (words->before > 0 && (words->before == words->length || !begins_word(words->name, words->before, words->length)))
        words->before--;
}

static bool is_last_word(const struct words *words, const char *const *list) {
    return is_one_of(words->name + words->before, words->length - words->before, list);
}

/* By the last word of the class's own name, but for those that say nothing: `SpinLock`, `os_mutex_t` and `CriticalSection` are, and `Clock`,
   `BlockDevice` and `LockTable` aren't. Nor is `sink<std::mutex>` one because of what it is a template of. */
bool is_called_lock(const char *name) {
    static const char *const locks[] = {"lock", "spinlock", "rwlock", "mutex", "monitor", "critical", NULL};
    static const char *const silent[] = {"impl", "section", "t", "s", NULL};
    struct words words = {name, strcspn(name, "<"), 0};
    cut_last_word(&words);
    while (words.before > 0 && is_last_word(&words, silent))
        cut_last_word(&words);
    return is_last_word(&words, locks);
}

/* ---- */

static bool is_of_lock(const struct step *step) { return is_lock_class(step->type); }

static bool has_name(const struct step *step) {
    Dwarf_Die type = step->type;
    return class_name(&type) && !is_of_library(qualified(&type));
}

/* Adds to the member on the way, up to the lock or the next class with a name. */
static const char *member_of(const struct path *path, int from) {
    char *member = written("%s", "");
    for (int i = from; i < path->count; i++) {
        const struct step *step = &path->steps[i];
        Dwarf_Die type = step->type;
        bool is_within = i == from || !class_name(&type), has_member = is_within && step->member && step->member[0];
        bool is_array = step->is_array && (is_within || is_of_library(qualified(&type))) && !strstr(member, "[]");
        if (!is_within && !is_of_library(qualified(&type)))
            break;
        member = written("%s%s%s%s", member, has_member && member[0] ? "." : "", has_member ? step->member : "", is_array ? "[]" : "");
    }
    return member[0] ? member : "{base}";
}

static const char *text_from(const struct path *path, int from) {
    Dwarf_Die type = path->steps[from].type;
    return written("%s%s::%s", file_mark(&type, qualified(&type)), without_anonymous(distinct_name(&type)), member_of(path, from));
}

const char *text_of(const struct path *path) {
    for (int i = path->count; i-- > 0;)
        if (has_name(&path->steps[i]) && !is_of_lock(&path->steps[i]))
            return text_from(path, i);
    return NULL;
}

const char *member_without_class(const struct path *path) {
    Dwarf_Die type = path->count ? path->steps[0].type : (Dwarf_Die){0};
    return path->count && !class_name(&type) ? written(".%s", member_of(path, 0)) : NULL;
}

const char *weak_text_of(const struct path *path) {
    for (int i = 0; i < path->count; i++) {
        Dwarf_Die type = path->steps[i].type;
        if (has_name(&path->steps[i]) && !is_called_lock(class_name(&type)))
            return text_from(path, i);
    }
    return NULL;
}
