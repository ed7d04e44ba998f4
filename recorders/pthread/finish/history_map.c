/* From numbers to numbers. */
#include "history.h"

#define FIRST_ROOM 64

static size_t place_of(const struct map *map, uint64_t key) {
    size_t i = (size_t)(key * UINT64_C(0x9e3779b97f4a7c15) >> 20) & (map->room - 1);
    while (map->keys[i] && map->keys[i] != key)
        i = (i + 1) & (map->room - 1);
    return i;
}

static void grow(struct map *map) {
    struct map larger = {.room = map->room ? 2 * map->room : FIRST_ROOM, .used = map->used};
    larger.keys = checked(calloc(larger.room, sizeof *larger.keys));
    larger.values = checked(calloc(larger.room, sizeof *larger.values));
    for (size_t i = 0; i < map->room; i++)
        if (map->keys[i]) {
            size_t to = place_of(&larger, map->keys[i]);
            larger.keys[to] = map->keys[i];
            larger.values[to] = map->values[i];
        }
    forget_map(map);
    *map = larger;
}

uint32_t *value_at(struct map *map, uint64_t key) {
    if (2 * (map->used + 1) > map->room)
        grow(map);
    size_t i = place_of(map, key);
    map->used += !map->keys[i];
    map->keys[i] = key;
    return &map->values[i];
}

uint32_t value_of(const struct map *map, uint64_t key) {
    size_t i = map->room ? place_of(map, key) : 0;
    return map->room && map->keys[i] ? map->values[i] : 0;
}

void forget_map(struct map *map) {
    free(map->keys);
    free(map->values);
    *map = (struct map){.room = 0};
}
