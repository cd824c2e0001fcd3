/* Arrays lent to calls, and what is looked at afterwards. */
#ifndef LEND_H
#define LEND_H

#include "guard.h"
#include "shapes.h"

/* The rooms that all calls share. The first are read-only for the calls. */
struct rooms {
    struct room offsets, targets;
    struct room read[TABLES];
    struct room written[TABLES];
    struct room lists[LISTS];
    struct room work, list;
    struct room numbers[2];
};

/* How the memory of one round is lent. */
struct lending {
    const struct rooms *rooms;
    enum side side;
    bool nulls;
    uint64_t salt;
};

struct rooms rooms_open(void);

/* The array in a room, as a call sees it. Where nothing is lent it may be null. */
const uint32_t *lend(const struct lending *lending, const struct room *room, const struct array *array);

/* So many marks in a room, for a call to write over. */
uint32_t *lend_marks(const struct lending *lending, const struct room *room, size_t entries);

/* A number in a room, for a call's answer, and its value before the call. */
size_t *lend_number(const struct lending *lending, int which);
size_t number_mark(const struct lending *lending);

/* A length where so many entries are needed: mostly enough, else short or anything. */
size_t some_length(struct random *random, size_t need);

/* Each kind of call, run on the memory so lent. */
void run_graph(const struct lending *lending, struct random random, const struct graph *graph);
void run_components(const struct lending *lending, struct random random, const struct graph *graph);
void run_queries(const struct lending *lending, struct random random, const struct tables *tables);
void run_others(const struct lending *lending, struct random random, const struct tables *tables);

#endif
