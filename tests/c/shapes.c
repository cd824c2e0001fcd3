/* Graphs. */
#include "shapes.h"
#include <relaypath.h>
#include <stdio.h>
#include <stdlib.h>

/* Room for the longest array. */
static void array_open(struct array *array) {
    array->len = 0;
    array->data = calloc(CAPACITY, sizeof(uint32_t));
    if (array->data == NULL) {
        perror("calloc");
        exit(2);
    }
}

void graph_open(struct graph *graph) {
    array_open(&graph->offsets);
    array_open(&graph->targets);
}

void tables_open(struct tables *tables) {
    for (int table = 0; table < TABLES; table++) {
        array_open(&tables->six[table]);
    }
}

size_t some_vertices(struct random *random) {
    if (once_in(random, 20000)) {
        return RELAYPATH_MAX_VERTICES - 1 + below(random, 3);
    }
    if (once_in(random, 1000)) {
        return 1 + below(random, 2500);
    }
    return 1 + below(random, once_in(random, 4) ? 48 : 12);
}

size_t some_argument(struct random *random, size_t n) {
    if (n > 0 && !once_in(random, 8)) {
        return below(random, n);
    }
    const size_t few = below(random, n + 2);
    const size_t limits[] = {n,
                             n - 1,
                             n + 1,
                             0,
                             SIZE_MAX,
                             SIZE_MAX - few,
                             SIZE_MAX / 2,
                             SIZE_MAX / 2 + 1,
                             UINT32_MAX,
                             (size_t)UINT32_MAX + 1,
                             (size_t)UINT32_MAX + 1 + few,
                             RELAYPATH_MAX_VERTICES,
                             65535,
                             65536,
                             2 * n};
    return limits[below(random, sizeof limits / sizeof *limits)];
}

uint32_t another(struct random *random, uint32_t number, size_t n) {
    const uint32_t limits[] = {number + 1,
                               number - 1,
                               0,
                               (uint32_t)n,
                               (uint32_t)n - 1,
                               UINT32_MAX,
                               UINT32_MAX - 1,
                               UINT32_C(1) << 31,
                               (uint32_t)below(random, n + 1),
                               (uint32_t)next(random)};
    return limits[below(random, sizeof limits / sizeof *limits)];
}

void stretch(struct random *random, struct array *array) {
    size_t few = 1 + below(random, 4);
    if (once_in(random, 2) && array->len + few <= CAPACITY) {
        for (; few > 0; few--) {
            array->data[array->len] = (uint32_t)below(random, array->len + 2);
            array->len++;
        }
    } else if (once_in(random, 3)) {
        array->len = 0;
    } else {
        array->len -= few < array->len ? few : array->len;
    }
}

static uint32_t joined[CAPACITY][2];

/* The edges of a tree: each vertex after the first hangs from an earlier one, by one of five rules. */
static void draw_edges(struct random *random, size_t n) {
    size_t rule = below(random, 5), turn = below(random, n);
    for (size_t v = 1; v < n; v++) {
        const size_t parents[] = {v - 1, 0, below(random, v), (v - 1) / 2, v % 2 == 0 ? v - 1 : (v > 2 ? v - 2 : 0)};
        joined[v - 1][0] = (uint32_t)((v + turn) % n);
        joined[v - 1][1] = (uint32_t)((parents[rule] + turn) % n);
    }
    for (size_t i = n - 1; i > 1; i--) {
        size_t j = below(random, i);
        for (int end = 0; end < 2; end++) {
            uint32_t kept = joined[i - 1][end];
            joined[i - 1][end] = joined[j][end];
            joined[j][end] = kept;
        }
    }
}

/* The lists of so many edges, each edge in the lists of both its ends. */
static void lists_of(struct graph *graph, size_t n, size_t edges) {
    uint32_t *offsets = graph->offsets.data;
    graph->offsets.len = n + 1;
    graph->targets.len = 2 * edges;
    for (size_t u = 0; u <= n; u++) {
        offsets[u] = 0;
    }
    for (size_t i = 0; i < 2 * edges; i++) {
        offsets[joined[i / 2][i % 2]]++;
    }
    for (size_t u = 1; u <= n; u++) {
        offsets[u] += offsets[u - 1];
    }
    for (size_t i = 0; i < 2 * edges; i++) {
        graph->targets.data[--offsets[joined[i / 2][i % 2]]] = joined[i / 2][1 - i % 2];
    }
}

void some_tree(struct random *random, struct graph *graph, size_t n) {
    draw_edges(random, n);
    lists_of(graph, n, n - 1);
    graph->is_tree = n <= RELAYPATH_MAX_VERTICES;
}

/* Symmetric lists with an edge too many, one too few, or one that stands twice or joins a vertex to itself. */
static void other_edges(struct random *random, struct graph *graph, size_t n) {
    size_t edges = n - 1;
    draw_edges(random, n);
    for (size_t i = below(random, 3); i > 0 && edges + 1 < CAPACITY / 2; i--) {
        joined[edges][0] = (uint32_t)below(random, n);
        joined[edges++][1] = (uint32_t)below(random, n);
    }
    for (size_t i = below(random, 3); i > 0 && edges > 0; i--) {
        size_t j = below(random, edges--);
        joined[j][0] = joined[edges][0];
        joined[j][1] = joined[edges][1];
    }
    lists_of(graph, n, edges);
}

/* Any numbers: of every magnitude, or vertices in lists whose offsets rise. */
static void any_graph(struct random *random, struct graph *graph) {
    size_t n = below(random, 40), bits = below(random, 33);
    bool rise = once_in(random, 2);
    graph->targets.len = below(random, 60);
    graph->offsets.len = n + below(random, 2);
    for (size_t i = 0; i < graph->targets.len; i++) {
        graph->targets.data[i] = rise && n > 0 ? (uint32_t)below(random, n) : (uint32_t)(next(random) >> 32 >> bits);
    }
    for (size_t u = 0; u < graph->offsets.len; u++) {
        size_t e = graph->targets.len, last = graph->offsets.len - 1;
        graph->offsets.data[u] = rise ? (uint32_t)(last == 0 ? e : e * u / last) : (uint32_t)(next(random) >> 32 >> bits);
    }
}

/* One entry changed in an array that has one. */
static void damage(struct random *random, struct array *array, size_t n) {
    if (array->len > 0) {
        size_t i = below(random, array->len);
        array->data[i] = another(random, array->data[i], n);
    }
}

/* One more entry in the list of the last vertex. */
static void lengthen(struct random *random, struct graph *graph, size_t n) {
    graph->targets.data[graph->targets.len++] = (uint32_t)(once_in(random, 2) ? n - 1 : below(random, n));
    graph->offsets.data[n]++;
}

void some_graph(struct random *random, struct graph *graph) {
    size_t n = some_vertices(random);
    some_tree(random, graph, n);
    if (once_in(random, 4)) {
        return;
    }
    graph->is_tree = false;
    if (n >= RELAYPATH_MAX_VERTICES - 1 && once_in(random, 2)) {
        lengthen(random, graph, n);
        lengthen(random, graph, n);
        return;
    }
    for (size_t left = once_in(random, 4) ? 2 : 1; left > 0; left--) {
        switch (below(random, 9)) {
        case 0:
        case 1:
            damage(random, &graph->offsets, graph->targets.len);
            break;
        case 2:
        case 3:
            damage(random, &graph->targets, n);
            break;
        case 4:
            stretch(random, once_in(random, 2) ? &graph->offsets : &graph->targets);
            break;
        case 5:
            any_graph(random, graph);
            break;
        case 6:
            if (graph->offsets.len == n + 1 && graph->targets.len < CAPACITY - 4) {
                lengthen(random, graph, n);
            }
            break;
        default:
            other_edges(random, graph, n);
        }
    }
}
