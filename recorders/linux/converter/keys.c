/* Keys: which classes with which subclasses are written. */
#define _GNU_SOURCE
#include "converter.h"

bool is_event(const struct lr_record *record) {
    return record->type == LR_ACQUIRE || record->type == LR_RELEASE || record->type == LR_ENABLE;
}

bool is_lock(const struct lr_record *record) { return record->type == LR_ACQUIRE || record->type == LR_HELD; }

bool is_try(const struct lr_record *record) { return record->flags & LR_TRY; }

/* Whether an acquisition counts, apart from its class. */
bool is_checked(const struct lr_record *record) {
    return (record->flags & LR_CHECK) && !(no_validate && base_key(record) == no_validate);
}

bool is_writable(const struct lr_record *record) {
    return is_checked(record) && !(options.version == 1 && is_try(record));
}

unsigned long *uses_of_key(size_t key) { return &writtens[key / SUBCLASSES].uses[key % SUBCLASSES]; }

static int by_uses(const void *a, const void *b) {
    size_t first = *(const size_t *)a, second = *(const size_t *)b;
    unsigned long first_uses = *uses_of_key(first), second_uses = *uses_of_key(second);
    if (first_uses != second_uses)
        return first_uses > second_uses ? -1 : 1;
    return first < second ? -1 : 1;
}

/* Whether the module of --only-module takes a lock itself. */
static bool is_by_module(const struct lr_record *record) {
    int load = options.only_module ? load_at(record->place, record->number) : NO_LOAD;
    return load != NO_LOAD && !strcmp(loads[load].name, options.only_module);
}

static void count_use(const struct lr_record *record) {
    struct class *class = &classes[class_of_record(record)];
    struct written *written = &writtens[class->written];
    written->uses[record->flags & LR_SUBCLASS]++;
    written->is_of_module = written->is_of_module || is_by_module(record);
    if (class->taken_at)
        return;
    class->taker = record->place;
    class->taken_at = record->number;
}

static void count_uses(void) {
    struct item item;
    forget_names();
    for (begin_items(); next_item(&item);) {
        const struct lr_record *record = item.record;
        if (record->type == LR_NAME)
            learn_name(record);
        if (!is_lock(record) || !is_writable(record))
            continue;
        if (record->type == LR_ACQUIRE && (!(record->state & LR_LOOKED_AT) || (record->state & LR_IN_NMI)))
            continue;
        count_use(record);
    }
}

size_t keys_wanted, keys_chosen;

/* Whether a class is asked for by its name or by its module. */
static bool is_asked_for(const struct written *written) {
    bool is_named = options.is_only && !regexec(&options.only, written->text, 0, NULL, 0);
    return is_named || written->is_of_module || (!options.is_only && !options.only_module);
}

/* The keys whose class is selected, the most used of them. */
void choose_keys(void) {
    count_uses();
    size_t *keys = NULL, count = 0;
    for (size_t key = 0; key < written_count * SUBCLASSES; key++) {
        if (*uses_of_key(key) && is_asked_for(&writtens[key / SUBCLASSES]))
            PUSH(keys, count, key);
    }
    if (count)
        qsort(keys, count, sizeof *keys, by_uses);
    keys_wanted = count;
    keys_chosen = count < options.keys ? count : options.keys;
    for (size_t number = 0; number < keys_chosen; number++)
        writtens[keys[number] / SUBCLASSES].is_chosen[keys[number] % SUBCLASSES] = true;
    free(keys);
}
