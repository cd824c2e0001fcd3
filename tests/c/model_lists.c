/* Centroids and component lists, after their definitions in document 01. All of this is about trees. */
#include "model.h"
#include <stdbool.h>

/* No vertex: what stands for the way back where there is none. */
static const uint32_t none = UINT32_MAX;

/* The tree that is asked about. */
static const struct array *offsets, *targets;

/* The vertices above the component that is looked at, and the levels found. */
static bool gone[MODEL_VERTICES];
static uint32_t *found;

/* The place in the targets where the list of v begins; that of the next vertex is where it ends. */
static uint32_t first_of(size_t v) {
    return offsets->data[v];
}

/* How many vertices hang from v, away from `back`, itself included. */
static size_t hanging(uint32_t v, uint32_t back) {
    size_t count = 1;
    for (uint32_t i = first_of(v); i < first_of(v + 1); i++) {
        uint32_t w = targets->data[i];
        count += w != back && !gone[w] ? hanging(w, v) : 0;
    }
    return count;
}

/* "Whose removal leaves parts of at most half the vertices": twice the part is at most the whole. */
static bool halves(uint32_t v, size_t whole) {
    for (uint32_t i = first_of(v); i < first_of(v + 1); i++) {
        uint32_t w = targets->data[i];
        if (!gone[w] && 2 * hanging(w, v) > whole) {
            return false;
        }
    }
    return true;
}

/* "Of two such, the one nearer the start": two such are neighbours, so on the way from the start the nearer one is met first. */
static uint32_t centroid(uint32_t v, uint32_t back, size_t whole) {
    if (halves(v, whole)) {
        return v;
    }
    for (uint32_t i = first_of(v); i < first_of(v + 1); i++) {
        uint32_t w = targets->data[i];
        uint32_t c = w != back && !gone[w] ? centroid(w, v, whole) : none;
        if (c != none) {
            return c;
        }
    }
    return none;
}

/* "Each next start is a neighbour of the removed centroid. Levels grow by 1." */
static void decompose(uint32_t start, uint32_t level) {
    uint32_t c = centroid(start, none, hanging(start, none));
    found[c] = level;
    gone[c] = true;
    for (uint32_t i = first_of(c); i < first_of(c + 1); i++) {
        if (!gone[targets->data[i]]) {
            decompose(targets->data[i], level + 1);
        }
    }
    gone[c] = false;
}

void model_levels(const struct array *os, const struct array *ts, uint32_t *levels) {
    offsets = os;
    targets = ts;
    found = levels;
    decompose(0, 0);
}

/* The vertex from which that of each entry was met. */
static uint32_t met_from[MAX_ENTRIES];

/* One more entry of the lists. More than there is room for are not taken, so that wrong levels end too. */
static void enter(struct lists *lists, uint32_t v, uint32_t distance, uint32_t branch, uint32_t back) {
    size_t place = lists->counts[VERTICES];
    if (place == MAX_ENTRIES) {
        return;
    }
    lists->entries[VERTICES][place] = v;
    lists->entries[DISTANCES][place] = distance;
    lists->entries[BRANCHES][place] = branch;
    met_from[place] = back;
    lists->counts[VERTICES]++;
}

/* The component of c "breadth first in list order". The centroids above c are on lower levels, and no other vertex of its component is. */
static void list_component(struct lists *lists, const uint32_t *levels, uint32_t c) {
    size_t first = lists->counts[VERTICES];
    enter(lists, c, 0, c, none);
    for (size_t place = first; place < lists->counts[VERTICES]; place++) {
        uint32_t u = lists->entries[VERTICES][place], distance = lists->entries[DISTANCES][place] + 1;
        for (uint32_t i = first_of(u); i < first_of(u + 1); i++) {
            uint32_t w = targets->data[i];
            if (w != met_from[place] && levels[w] >= levels[c]) {
                enter(lists, w, distance, u == c ? w : lists->entries[BRANCHES][place], u);
            }
        }
    }
}

void model_lists(const struct array *os, const struct array *ts, const uint32_t *levels, struct lists *lists) {
    size_t n = os->len - 1;
    offsets = os;
    targets = ts;
    lists->counts[VERTICES] = 0;
    for (size_t c = 0; c < n; c++) {
        lists->entries[STARTS][c] = (uint32_t)lists->counts[VERTICES];
        list_component(lists, levels, (uint32_t)c);
    }
    lists->entries[STARTS][n] = (uint32_t)lists->counts[VERTICES];
    lists->counts[DISTANCES] = lists->counts[BRANCHES] = lists->counts[VERTICES];
    lists->counts[STARTS] = n + 1;
}
