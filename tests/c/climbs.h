/* The parts that the model of the queries is made of. */
#ifndef CLIMBS_H
#define CLIMBS_H

#include "model.h"
#include <stdbool.h>

/* The tables that are asked about, and their length. */
extern const struct array *tables;
extern uint64_t n;

/* An entry of a table. */
uint64_t at(int table, uint64_t place);

struct answer refused(uint32_t code);
struct answer is(uint64_t number);

/* Whether a vertex is sound, and whether its size may be used. */
bool sound(uint64_t x);
bool size_fits(uint64_t x);

/* A climb: the ends on one chain, and the ranges that each side left, from its vertex on. */
struct climb {
    bool refused;
    uint64_t end[2];
    size_t left[2];
    uint64_t ranges[2][MAX_RANGES][2];
};

struct climb climb(uint64_t u, uint64_t v);

/* Of two ends with one head the shallower, the first at equal depth. */
uint64_t ancestor(const struct climb *c);

struct answer kth_ancestor(uint64_t x, uint64_t k);

#endif
