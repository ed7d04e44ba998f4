/* How threads were started: those in the same way run one function of the program. A function that comes with the system, as the one of
   std::thread, runs whatever it is given: of these it is the call of the program that has started them which is the same. */
#include "finish.h"

struct way {
    uint64_t word; /* the function's first byte, or where the call returns */
    bool is_call;
};

static struct way *ways;
static uint32_t way_count;

static bool is_of_system(uint64_t word) { return word == UINT64_MAX || raw_is_of_system(modules[raw_word_module(word)].path); }

/* The innermost call that doesn't come with the system; or the innermost of all. */
static uint64_t own_call(const struct place *place) {
    for (uint32_t i = 0; i < place->count; i++)
        if (!is_of_system(place->words[i]))
            return place->words[i];
    return place->count ? place->words[0] : UINT64_MAX;
}

static uint32_t number_of(struct way way) {
    for (uint32_t i = 0; i < way_count; i++)
        if (ways[i].word == way.word && ways[i].is_call == way.is_call)
            return i + 1;
    PUSH(ways, way_count, way);
    return way_count;
}

uint32_t way_of_start(struct arena *a, uint32_t number) {
    const struct raw_class *class = part_of(a, RAW_CLASSES, number);
    if (!class || class->kind != CLASS_RUN)
        return 0;
    struct way way = {class->word ? global_word(a, class->word) : own_call(place_numbered(a, class->place)), !class->word};
    return way.word == UINT64_MAX ? 0 : number_of(way);
}
