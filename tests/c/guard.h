/* Memory between two guard pages, where a read or a write past what is lent ends in a fault. */
#ifndef GUARD_H
#define GUARD_H

#include <stdbool.h>
#include <stddef.h>
#include <stdint.h>

/* Which guard page the lent memory lies flush against. */
enum side { AT_END, AT_START, SIDES };

/* `seen` is what a call gets, and `hand` the same memory where the test writes. A read-only room faults where a call writes it. */
struct room {
    unsigned char *hand;
    unsigned char *seen;
    size_t bytes;
};

struct room room_open(size_t bytes, bool read_only);

/* Where so many entries lie in a room, as the call sees them and as the test writes them. */
uint32_t *seen(const struct room *room, enum side side, size_t entries);
uint32_t *hand(const struct room *room, enum side side, size_t entries);

/* What stands at a place of lent memory before a call: never zero, and of every magnitude. */
uint32_t mark(size_t place, uint64_t salt);

void fill_marks(uint32_t *at, size_t count, uint64_t salt);

/* Whether the entries from `first` up to `end` hold their marks. */
bool are_marks(const uint32_t *at, size_t first, size_t end, uint64_t salt);

bool are_zero(const uint32_t *at, size_t count);

#endif
