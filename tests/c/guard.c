#define _GNU_SOURCE
#include "guard.h"
#include "random.h"
#include <stdio.h>
#include <stdlib.h>
#include <sys/mman.h>
#include <unistd.h>

/* Ends the test where the system gives no memory. */
static void *must(void *mapped) {
    if (mapped == MAP_FAILED) {
        perror("mmap");
        exit(2);
    }
    return mapped;
}

/* The memory of a file that has no name is mapped twice: between guard pages for the calls, and writable for the test. */
struct room room_open(size_t bytes, bool read_only) {
    size_t page = (size_t)sysconf(_SC_PAGESIZE);
    bytes = (bytes + page - 1) / page * page;
    int file = memfd_create("room", 0);
    if (file < 0 || ftruncate(file, (off_t)bytes) != 0) {
        perror("memfd_create");
        exit(2);
    }
    struct room room;
    room.bytes = bytes;
    room.hand = must(mmap(NULL, bytes, PROT_READ | PROT_WRITE, MAP_SHARED, file, 0));
    unsigned char *guarded = must(mmap(NULL, bytes + 2 * page, PROT_NONE, MAP_PRIVATE | MAP_ANONYMOUS, -1, 0));
    int rights = read_only ? PROT_READ : PROT_READ | PROT_WRITE;
    room.seen = must(mmap(guarded + page, bytes, rights, MAP_SHARED | MAP_FIXED, file, 0));
    close(file);
    return room;
}

/* Where in a room so many entries begin. */
static size_t place(const struct room *room, enum side side, size_t entries) {
    size_t bytes = entries * sizeof(uint32_t);
    if (bytes > room->bytes) {
        fprintf(stderr, "a room is too small\n");
        exit(2);
    }
    return side == AT_END ? room->bytes - bytes : 0;
}

uint32_t *seen(const struct room *room, enum side side, size_t entries) {
    return (uint32_t *)(void *)(room->seen + place(room, side, entries));
}

uint32_t *hand(const struct room *room, enum side side, size_t entries) {
    return (uint32_t *)(void *)(room->hand + place(room, side, entries));
}

uint32_t mark(size_t place, uint64_t salt) {
    uint32_t number = (uint32_t)mixed(salt + place * UINT64_C(0x9E3779B97F4A7C15));
    return (number >> (salt % 32)) | 1;
}

void fill_marks(uint32_t *at, size_t count, uint64_t salt) {
    for (size_t i = 0; i < count; i++) {
        at[i] = mark(i, salt);
    }
}

bool are_marks(const uint32_t *at, size_t first, size_t end, uint64_t salt) {
    for (size_t i = first; i < end; i++) {
        if (at[i] != mark(i, salt)) {
            return false;
        }
    }
    return true;
}

bool are_zero(const uint32_t *at, size_t count) {
    for (size_t i = 0; i < count; i++) {
        if (at[i] != 0) {
            return false;
        }
    }
    return true;
}
