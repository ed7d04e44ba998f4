/* Locks that several processes share: each process has them at addresses of its own, so they are known by the file and the place in it. */
#define _GNU_SOURCE
#include "provoke.h"

#include <fcntl.h>
#include <inttypes.h>
#include <stdio.h>
#include <stdlib.h>
#include <string.h>
#include <unistd.h>

#define KNOWN 1024
#define LINE 4352

/* The numbers of locks by their addresses. Another lock may take the place of one here. */
static struct known {
    uintptr_t lock;
    uint64_t number;
} known[KNOWN];

static uint64_t mixed(uint64_t value) { return (value ^ value >> 31) * UINT64_C(0x9E3779B97F4A7C15); }

/* The number by a line of /proc/self/maps; 0 if the lock isn't there, the address if the memory isn't shared. */
static uint64_t number_by(const char *line, uintptr_t lock) {
    uintptr_t start, end;
    char rights[5];
    uint64_t offset, device, minor, inode;
    if (sscanf(line, "%" SCNxPTR "-%" SCNxPTR " %4s %" SCNx64 " %" SCNx64 ":%" SCNx64 " %" SCNu64, &start, &end, rights, &offset, &device, &minor, &inode) != 7)
        return 0;
    if (lock < start || lock >= end)
        return 0;
    return rights[3] != 's' ? lock : SHARED_LOCK | mixed(mixed(mixed(device << 32 | minor) ^ inode) ^ (offset + lock - start)) >> 1;
}

static uint64_t looked_up(uintptr_t lock) {
    char line[LINE];
    uint64_t number = 0;
    FILE *file = fopen("/proc/self/maps", "re");
    while (file && !number && fgets(line, sizeof line, file))
        number = number_by(line, lock);
    if (file)
        fclose(file);
    return number ? number : lock;
}

uint64_t number_of_lock(const void *at) {
    uintptr_t lock = (uintptr_t)at;
    struct known *place = &known[mixed(lock) >> 32 & (KNOWN - 1)];
    if (__atomic_load_n(&place->lock, __ATOMIC_ACQUIRE) == lock)
        return __atomic_load_n(&place->number, __ATOMIC_RELAXED);
    uint64_t number = looked_up(lock);
    __atomic_store_n(&place->lock, 0, __ATOMIC_RELEASE);
    __atomic_store_n(&place->number, number, __ATOMIC_RELEASE);
    __atomic_store_n(&place->lock, lock, __ATOMIC_RELEASE);
    return number;
}
