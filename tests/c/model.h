/* What document 01 says that the calls answer, written down a second time and as plainly as possible. */
#ifndef MODEL_H
#define MODEL_H

#include "report.h"
#include <stddef.h>
#include <stdint.h>

/* Numbers in ordinary memory. */
struct array {
    uint32_t *data;
    size_t len;
};

/* The six tables, in the order of the calls' parameters. */
enum { PARENT, DEPTHS, HEAD, ID, ORDER, SIZE, TABLES };

/* 2 * 15 + 1 ranges are enough for 32,768 vertices. */
enum { MAX_RANGES = 31, MAX_LIST = 3 * MAX_RANGES };

/* A code; after 0 the numbers of the answer: one, two for an interval, three to a range for a list. */
struct answer {
    uint32_t code;
    size_t count;
    uint64_t numbers[MAX_LIST];
};

/* A query or a list of ranges, with its arguments in order. */
struct answer model_query(enum call call, const struct array six[TABLES], const size_t arguments[3]);

/* floor(log2 n) for n of 1 and more. */
size_t floor_log2(size_t n);

/* The code of a validation, or 0 for "0, 6, 7 or 8" where the graph has more than MODEL_VERTICES vertices. */
enum { MODEL_VERTICES = 64 };
uint32_t model_graph(const struct array *offsets, const struct array *targets, size_t root, size_t work_len);

/* The levels of the centroids of a tree of at most MODEL_VERTICES vertices. */
void model_levels(const struct array *offsets, const struct array *targets, uint32_t *levels);

/* What the component lists write, in the order of the call's parameters. */
enum { VERTICES, DISTANCES, BRANCHES, STARTS, LISTS };

/* 32,768 * (15 + 1) entries are enough for each list. */
enum { MAX_ENTRIES = 16 * 32768 };

/* The lists, one behind the other, the starts, and how many entries there are of each. */
struct lists {
    size_t counts[LISTS];
    uint32_t entries[LISTS][MAX_ENTRIES];
};

/* The component lists of a tree whose centroids have these levels. */
void model_lists(const struct array *offsets, const struct array *targets, const uint32_t *levels, struct lists *lists);

#endif
