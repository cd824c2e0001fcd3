#include "lend.h"
#include <string.h>

enum { WORK_ROOM = 10 * CAPACITY, LIST_ROOM = MAX_ENTRIES + 128 };

struct rooms rooms_open(void) {
    struct rooms rooms;
    size_t bytes = CAPACITY * sizeof(uint32_t);
    rooms.offsets = room_open(bytes, true);
    rooms.targets = room_open(bytes, true);
    for (int table = 0; table < TABLES; table++) {
        rooms.read[table] = room_open(bytes, true);
        rooms.written[table] = room_open(bytes, false);
    }
    for (int list = 0; list < LISTS; list++) {
        rooms.lists[list] = room_open(LIST_ROOM * sizeof(uint32_t), false);
    }
    rooms.work = room_open(WORK_ROOM * sizeof(uint32_t), false);
    rooms.list = room_open(bytes, false);
    rooms.numbers[0] = room_open(sizeof(size_t), false);
    rooms.numbers[1] = room_open(sizeof(size_t), false);
    return rooms;
}

const uint32_t *lend(const struct lending *lending, const struct room *room, const struct array *array) {
    if (array->len == 0 && lending->nulls) {
        return NULL;
    }
    memcpy(hand(room, lending->side, array->len), array->data, array->len * sizeof(uint32_t));
    return seen(room, lending->side, array->len);
}

uint32_t *lend_marks(const struct lending *lending, const struct room *room, size_t entries) {
    if (entries == 0 && lending->nulls) {
        return NULL;
    }
    fill_marks(hand(room, lending->side, entries), entries, lending->salt);
    return seen(room, lending->side, entries);
}

size_t number_mark(const struct lending *lending) {
    return (size_t)mixed(lending->salt) | 1;
}

size_t *lend_number(const struct lending *lending, int which) {
    const struct room *room = &lending->rooms->numbers[which];
    size_t *number = (size_t *)(void *)seen(room, lending->side, sizeof(size_t) / sizeof(uint32_t));
    *number = number_mark(lending);
    return number;
}

size_t some_length(struct random *random, size_t need) {
    const size_t lengths[] = {need, need, need + 1 + below(random, 5), need - (need > 0), below(random, need + 1), 0, need + 64};
    return lengths[below(random, once_in(random, 4) ? 7 : 3)];
}
