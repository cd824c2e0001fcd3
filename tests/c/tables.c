/* Tables. */
#include "shapes.h"
#include <relaypath.h>
#include <stdio.h>
#include <stdlib.h>

static uint32_t work[10 * CAPACITY];

/* The tables of a tree. A tree that is refused ends the test. */
static void build(struct graph *graph, size_t root, struct tables *tables) {
    struct array *six = tables->six;
    size_t n = graph->offsets.len - 1;
    for (int table = 0; table < TABLES; table++) {
        six[table].len = n;
    }
    uint32_t code =
        relaypath_try_hld(graph->offsets.data, n + 1, graph->targets.data, graph->targets.len, root, six[PARENT].data, n, six[DEPTHS].data,
                          n, six[HEAD].data, n, six[ID].data, n, six[ORDER].data, n, six[SIZE].data, n, work, sizeof work / sizeof *work);
    if (code != RELAYPATH_DONE) {
        printf("fuzz: wrong: relaypath_try_hld refused a tree with %u\n", (unsigned)code);
        exit(1);
    }
}

/* One entry of one table changed. */
static void change(struct random *random, struct tables *tables) {
    struct array *table = &tables->six[below(random, TABLES)];
    if (table->len > 0) {
        size_t i = below(random, table->len);
        table->data[i] = another(random, table->data[i], table->len);
    }
}

/* Each vertex a chain by itself, which is sound, but a climb may meet more chains than it may leave. */
static void cut_chains(struct tables *tables) {
    for (size_t v = 0; v < tables->six[HEAD].len; v++) {
        tables->six[HEAD].data[v] = (uint32_t)v;
    }
}

/* A chain without a parent whose depths start at 0: sound, but no climb gets from it to another. */
static void cut_off(struct random *random, struct tables *tables) {
    struct array *six = tables->six;
    size_t n = six[HEAD].len;
    uint32_t h = six[HEAD].data[below(random, n)] % (uint32_t)n, top = six[DEPTHS].data[h];
    for (size_t v = 0; v < n; v++) {
        if (six[HEAD].data[v] == h) {
            six[DEPTHS].data[v] -= top;
        }
    }
    six[PARENT].data[h] = RELAYPATH_NO_PARENT;
}

/* Any numbers, of one magnitude. */
static void any_numbers(struct random *random, struct tables *tables) {
    size_t bits = below(random, 33), n = tables->six[HEAD].len;
    bool vertices = once_in(random, 2);
    for (int table = 0; table < TABLES; table++) {
        for (size_t v = 0; v < n; v++) {
            tables->six[table].data[v] = vertices ? (uint32_t)below(random, n) : (uint32_t)(next(random) >> 32 >> bits);
        }
    }
}

/* Lengths that do not fit, or that fit and are not n. */
static void other_lengths(struct random *random, struct tables *tables) {
    size_t length = below(random, 40);
    switch (below(random, 3)) {
    case 0:
        stretch(random, &tables->six[below(random, TABLES)]);
        break;
    case 1:
        for (int table = 0; table < TABLES; table++) {
            tables->six[table].len = length;
        }
        break;
    default:
        for (int table = 0; table < TABLES; table++) {
            tables->six[table].len = below(random, 40);
        }
    }
}

/* Two tables in each other's place. */
static void swap_tables(struct random *random, struct tables *tables) {
    size_t a = below(random, TABLES), b = below(random, TABLES);
    struct array kept = tables->six[a];
    tables->six[a] = tables->six[b];
    tables->six[b] = kept;
}

/* One thing done to the tables, mostly a single entry changed. */
static void spoil(struct random *random, struct tables *tables) {
    switch (below(random, 10)) {
    case 0:
        cut_chains(tables);
        break;
    case 1:
        cut_off(random, tables);
        break;
    case 2:
        any_numbers(random, tables);
        break;
    case 3:
        swap_tables(random, tables);
        break;
    default:
        change(random, tables);
    }
}

void some_tables(struct random *random, struct graph *graph, struct tables *tables) {
    size_t n = some_vertices(random);
    n = n > RELAYPATH_MAX_VERTICES ? RELAYPATH_MAX_VERTICES : n;
    some_tree(random, graph, n);
    build(graph, below(random, n), tables);
    tables->are_built = once_in(random, 5);
    if (tables->are_built) {
        return;
    }
    for (size_t left = 1 + below(random, 3); left > 0; left--) {
        spoil(random, tables);
    }
    if (once_in(random, 12)) {
        other_lengths(random, tables);
    }
}
