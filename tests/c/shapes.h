/* Graphs and tables of many shapes, sound and damaged. */
#ifndef SHAPES_H
#define SHAPES_H

#include "model.h"
#include "random.h"

/* Entries that an array has room for. */
enum { CAPACITY = 70000 };

struct graph {
    struct array offsets;
    struct array targets;
    bool is_tree;
};

struct tables {
    struct array six[TABLES];
    bool are_built;
};

void graph_open(struct graph *graph);
void tables_open(struct tables *tables);

/* A number of vertices: mostly a few, now and then many, and sometimes about the limit. */
size_t some_vertices(struct random *random);

/* An argument: mostly a vertex, else one of the numbers at which something might wrap or be cut. */
size_t some_argument(struct random *random, size_t n);

/* A tree of n vertices with its lists in any order. */
void some_tree(struct random *random, struct graph *graph, size_t n);

/* A tree, or one that something was done to, or no tree at all. */
void some_graph(struct random *random, struct graph *graph);

/* The tables of a tree, or such that something was done to, or any numbers. */
void some_tables(struct random *random, struct graph *graph, struct tables *tables);

/* Another number in the place of this one: one more, one less, or one that stands at a limit. */
uint32_t another(struct random *random, uint32_t number, size_t n);

/* The same array with another length: some entries less or more. */
void stretch(struct random *random, struct array *array);

#endif
