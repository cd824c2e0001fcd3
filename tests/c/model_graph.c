/* Validation, after "Codes" and the definition of a tree in document 01. */
#include "model.h"
#include <relaypath.h>
#include <stdbool.h>
#include <string.h>

/* The offsets start at 0, never fall and end at E. */
static bool offsets_rise(const struct array *offsets, size_t e) {
    size_t n = offsets->len - 1;
    for (size_t u = 0; u < n; u++) {
        if (offsets->data[u] > offsets->data[u + 1]) {
            return false;
        }
    }
    return offsets->data[0] == 0 && offsets->data[n] == e;
}

/* Every target is a vertex. */
static bool targets_below(const struct array *targets, size_t n) {
    for (size_t i = 0; i < targets->len; i++) {
        if (targets->data[i] >= n) {
            return false;
        }
    }
    return true;
}

/* How often each vertex stands in each list, as `count_entries` found it. */
static uint32_t times[MODEL_VERTICES][MODEL_VERTICES];

static void count_entries(const struct array *offsets, const struct array *targets) {
    memset(times, 0, sizeof times);
    for (size_t u = 0; u + 1 < offsets->len; u++) {
        for (uint32_t i = offsets->data[u]; i < offsets->data[u + 1]; i++) {
            times[u][targets->data[i]]++;
        }
    }
}

/* Each v stands in u's list as often as u in v's. */
static bool symmetric(size_t n) {
    for (size_t u = 0; u < n; u++) {
        for (size_t v = 0; v < n; v++) {
            if (times[u][v] != times[v][u]) {
                return false;
            }
        }
    }
    return true;
}

/* How many vertices are reached from the root: whatever is next to a reached one is reached, n times over. */
static size_t reached(size_t n, size_t root) {
    bool is_reached[MODEL_VERTICES] = {false};
    size_t count = 1;
    is_reached[root] = true;
    for (size_t before = 0; before != count;) {
        before = count;
        for (size_t u = 0; u < n; u++) {
            for (size_t v = 0; v < n; v++) {
                if (is_reached[u] && times[u][v] != 0 && !is_reached[v]) {
                    is_reached[v] = true;
                    count++;
                }
            }
        }
    }
    return count;
}

/* Whether a connected graph is a tree: no vertex in its own list, none twice in a list, and one edge less than vertices. */
static bool no_cycle(size_t n) {
    size_t entries = 0;
    for (size_t u = 0; u < n; u++) {
        for (size_t v = 0; v < n; v++) {
            if (times[u][v] > (u == v ? 0 : 1)) {
                return false;
            }
            entries += times[u][v];
        }
    }
    return entries == 2 * (n - 1);
}

uint32_t model_graph(const struct array *offsets, const struct array *targets, size_t root, size_t work_len) {
    size_t n = offsets->len < 2 ? 0 : offsets->len - 1, e = targets->len;
    if (n < 1 || n > RELAYPATH_MAX_VERTICES || e > RELAYPATH_MAX_TARGETS) {
        return RELAYPATH_BAD_SIZE;
    }
    if (work_len < 8 * n + e) {
        return RELAYPATH_NO_ROOM;
    }
    if (!offsets_rise(offsets, e)) {
        return RELAYPATH_BAD_OFFSETS;
    }
    if (!targets_below(targets, n)) {
        return RELAYPATH_BAD_VERTEX;
    }
    if (root >= n) {
        return RELAYPATH_BAD_ROOT;
    }
    if (n > MODEL_VERTICES) {
        return RELAYPATH_DONE;
    }
    count_entries(offsets, targets);
    if (!symmetric(n)) {
        return RELAYPATH_NOT_SYMMETRIC;
    }
    if (reached(n, root) < n) {
        return RELAYPATH_DISCONNECTED;
    }
    return no_cycle(n) ? RELAYPATH_DONE : RELAYPATH_HAS_CYCLE;
}
