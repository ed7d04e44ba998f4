/* The real functions. They are looked for as dlsym(RTLD_NEXT, name) does, in the libraries that come after this one, but with no lock
   and in a tenth of the time, which a program notices that lives for half a millisecond. What is out of the ordinary, as a function
   that is chosen by the processor, is left to dlsym. */
#include "own.h"

#include <dlfcn.h>
#include <elf.h>
#include <link.h>

struct library {
    uintptr_t bias;
    const uint32_t *hashes;
    const ElfW(Sym) *symbols;
    const char *names;
    const uint16_t *versions;
};

/* Some loaders leave addresses as they are in the file. */
static const void *loaded(const struct link_map *map, uintptr_t address) {
    return (const void *)(address < map->l_addr ? address + map->l_addr : address);
}

static struct library read_library(const struct link_map *map) {
    struct library l = {.bias = map->l_addr};
    for (const ElfW(Dyn) *entry = map->l_ld; entry->d_tag != DT_NULL; entry++) {
        const void *at = loaded(map, entry->d_un.d_ptr);
        if (entry->d_tag == DT_GNU_HASH)
            l.hashes = at;
        else if (entry->d_tag == DT_SYMTAB)
            l.symbols = at;
        else if (entry->d_tag == DT_STRTAB)
            l.names = at;
        else if (entry->d_tag == DT_VERSYM)
            l.versions = at;
    }
    return l;
}

static uint32_t hash_of(const char *name) {
    uint32_t hash = 5381;
    for (; *name; name++)
        hash = hash * 33 + (uint8_t)*name;
    return hash;
}

#define HIDDEN 0x8000 /* of a version that isn't the default one */

static bool is_named(const struct library *l, uint32_t i, const char *name) {
    const ElfW(Sym) *symbol = &l->symbols[i];
    bool is_default = !l->versions || !(l->versions[i] & HIDDEN);
    return is_default && symbol->st_shndx != SHN_UNDEF && is_same_text(l->names + symbol->st_name, name);
}

#define WORD_BITS (8 * sizeof(ElfW(Addr)))

static const ElfW(Sym) *find_in(const struct library *l, const char *name, uint32_t hash) {
    uint32_t buckets = l->hashes[0], first = l->hashes[1], words = l->hashes[2], shift = l->hashes[3];
    const ElfW(Addr) *filter = (const ElfW(Addr) *)(l->hashes + 4), word = filter[hash / WORD_BITS & (words - 1)];
    const uint32_t *starts = (const uint32_t *)(filter + words), *chain = starts + buckets;
    if (!(word >> hash % WORD_BITS & word >> (hash >> shift) % WORD_BITS & 1) || starts[hash % buckets] < first)
        return NULL;
    for (uint32_t i = starts[hash % buckets];; i++) {
        uint32_t there = chain[i - first];
        if ((there | 1) == (hash | 1) && is_named(l, i, name))
            return &l->symbols[i];
        if (there & 1)
            return NULL;
    }
}

/* Of this library, whose dynamic part the linker calls by this name. */
static const struct link_map *own_map(void) {
    const struct link_map *map = _r_debug.r_map;
    while (map && map->l_ld != _DYNAMIC)
        map = map->l_next;
    return map;
}

/* In the first library that has it. */
static const ElfW(Sym) *find_quickly(const char *name, struct library *l) {
    const struct link_map *map = own_map();
    const ElfW(Sym) *symbol = NULL;
    uint32_t hash = hash_of(name);
    while (map && !symbol && (map = map->l_next)) {
        *l = read_library(map);
        symbol = l->hashes && l->symbols && l->names ? find_in(l, name, hash) : NULL;
    }
    return symbol && ELF64_ST_TYPE(symbol->st_info) == STT_FUNC ? symbol : NULL;
}

void *find_next(const char *name) {
    struct library l;
    const ElfW(Sym) *symbol = find_quickly(name, &l);
    return symbol ? (void *)(l.bias + symbol->st_value) : dlsym(RTLD_NEXT, name);
}

__attribute__((noinline)) void *find_real(void **known, const char *name) {
    void *real = find_next(name);
    STORE(known, real);
    return real;
}

/* Whether the C library is one in which functions are found without the loader's lock. */
bool finds_quickly(void) {
    static int known; /* 1 no, 2 yes */
    struct library l;
    if (!LOAD(&known))
        STORE(&known, find_quickly("pthread_mutex_trylock", &l) ? 2 : 1);
    return LOAD(&known) == 2;
}
