/* What memory was asked for: an array, or one object. The functions between the caller and the allocator tell it by their names, those
   among them that the compiler put into the caller by the debug information, which addr2line reads. */
#include "finish.h"

#include <string.h>
#include <sys/wait.h>
#include <unistd.h>

/* ---- By a function's name. */

static bool begins_with(const char *text, const char *start) { return strncmp(text, start, strlen(start)) == 0; }

static bool begins_with_any(const char *text, const char *const *starts) {
    for (; *starts; starts++)
        if (begins_with(text, *starts))
            return true;
    return false;
}

/* Functions that only hand on a request say nothing of it. The container next to the allocator does. */
static enum request request_by_name(const char *name) {
    static const char *const arrays[] = {"std::vector<", "std::_Vector_base<", "std::deque<", "std::_Deque_base<", "std::valarray<",
                                         "operator new[]", "operator_new[]", "std::__1::vector<", "std::__1::deque<", NULL};
    static const char *const handing_on[] = {"operator new", "operator_new", "std::__new_allocator<", "__gnu_cxx::new_allocator<",
                                             "std::allocator<", "std::allocator_traits<", "std::__allocate_guarded<",
                                             "__gnu_cxx::__alloc_traits<", "std::__1::allocator", "std::__1::__libcpp_", NULL};
    if (begins_with_any(name, arrays))
        return ASKED_ARRAY;
    bool is_library = begins_with(name, "std::") || begins_with(name, "__gnu_cxx::");
    return is_library && !begins_with_any(name, handing_on) ? ASKED_OBJECT : ASKED_UNKNOWN;
}

static enum request request_by_symbol(uint64_t word) {
    const struct symbol *s = word == UINT64_MAX ? NULL : symbol_at(raw_word_module(word), raw_word_offset(word) - 1, SYMBOL_CODE);
    char name[LONGEST_NAME] = "";
    if (s)
        tell_symbol(name, sizeof name, s->name);
    return request_by_name(name);
}

/* ---- By inlined functions. */

#define MOST_ASKED 256
static struct {
    uint64_t word;
    enum request request;
    bool is_answered;
} asked[MOST_ASKED];
static size_t asked_count;

void ask_about(const struct place *place) {
    uint64_t word = place->count ? place->words[0] : UINT64_MAX;
    for (size_t i = 0; i < asked_count; i++)
        if (asked[i].word == word)
            return;
    if (word != UINT64_MAX && asked_count < MOST_ASKED)
        asked[asked_count++].word = word;
}

static size_t asked_at(uint32_t module, uint64_t offset) {
    size_t i = 0;
    while (i < asked_count && asked[i].word != raw_word(module, offset + 1))
        i++;
    return i;
}

/* Reads of each address the functions, innermost first and the caller itself last, each with a line for its source. Without a source it is
   the last symbol before the address, which may be another function's, however far away. */
static void read_functions(FILE *from, uint32_t module) {
    char line[LONGEST_NAME], name[LONGEST_NAME] = "";
    size_t i = asked_count;
    for (bool is_function = true; fgets(line, sizeof line, from); is_function = !is_function) {
        if (begins_with(line, "0x")) {
            i = asked_at(module, strtoull(line, NULL, 16));
            is_function = false;
        } else if (is_function) {
            line[strcspn(line, "\n")] = 0;
            tell_symbol(name, sizeof name, line);
        } else if (i < asked_count && asked[i].request == ASKED_UNKNOWN && !begins_with(line, "??")) {
            asked[i].request = request_by_name(name);
        }
    }
}

static void run_reader(int to, uint32_t module) {
    static char addresses[MOST_ASKED][24];
    const char *arguments[MOST_ASKED + 8] = {"addr2line", "-a", "-f", "-i", "-e", modules[module].path};
    size_t count = 6;
    for (size_t i = 0; i < asked_count; i++)
        if (raw_word_module(asked[i].word) == module && !asked[i].is_answered) {
            snprintf(addresses[i], sizeof addresses[i], "0x%lx", (unsigned long)raw_word_offset(asked[i].word) - 1);
            arguments[count++] = addresses[i];
        }
    dup2(to, STDOUT_FILENO);
    if (!freopen("/dev/null", "w", stderr))
        _exit(1);
    execvp("addr2line", (char **)arguments);
    _exit(1);
}

static void ask_module(uint32_t module) {
    int ends[2];
    if (pipe(ends) != 0)
        return;
    fflush(NULL);
    pid_t reader = fork();
    if (reader == 0)
        run_reader(ends[1], module);
    close(ends[1]);
    FILE *from = fdopen(ends[0], "r");
    if (from) {
        read_functions(from, module);
        fclose(from);
    }
    if (reader > 0)
        waitpid(reader, NULL, 0);
}

/* Asks about all places at once, each module's together. */
void ask_all(void) {
    for (size_t i = 0; i < asked_count; i++)
        if (!asked[i].is_answered) {
            uint32_t module = raw_word_module(asked[i].word);
            ask_module(module);
            for (size_t k = i; k < asked_count; k++)
                asked[k].is_answered |= raw_word_module(asked[k].word) == module;
        }
}

/* ---- Both. */

static enum request request_by_inlined(uint64_t word) {
    size_t i = 0;
    while (i < asked_count && asked[i].word != word)
        i++;
    return i < asked_count && asked[i].request != ASKED_UNKNOWN ? asked[i].request : request_by_symbol(word);
}

/* The frames that were passed over to name the place, and the caller. */
enum request request_of(struct arena *a, uint32_t number) {
    const struct raw_place *raw = part_of(a, RAW_PLACES, number);
    const struct place *place = place_numbered(a, number);
    if (!raw || !place->count)
        return ASKED_UNKNOWN;
    enum request request = raw->element == RAW_ARRAY ? ASKED_ARRAY : ASKED_UNKNOWN;
    uint64_t callers[RAW_FRAMES];
    uint32_t count = raw_callers(a->raw, raw, callers);
    for (uint32_t i = 0; i < count && request == ASKED_UNKNOWN; i++) {
        uint64_t word = global_word(a, callers[i]);
        if (word == place->words[0])
            return request_by_inlined(word);
        request = request_by_symbol(word);
    }
    return request;
}
