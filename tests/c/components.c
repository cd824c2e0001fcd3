/* The component lists, with lists and starts of all lengths about what is needed. */
#include "lend.h"
#include "report.h"
#include <relaypath.h>

/* A graph as it is lent to the call, with what the call writes and the lengths of that. */
struct lent {
    const uint32_t *offsets, *targets;
    size_t work_len, lens[LISTS];
    uint32_t *work, *lists[LISTS];
};

/* What must come out: the code where there is room for all, and the lists of a tree. */
static uint32_t code_with_room;
static struct lists model;

static size_t vertices_of(const struct graph *graph) {
    return graph->offsets.len < 2 ? 0 : graph->offsets.len - 1;
}

/* The code of the decomposition and its levels, for graphs that are past the model's reach. */
static uint32_t decomposed(const struct graph *graph, uint32_t *levels) {
    static uint32_t parent[CAPACITY], work[10 * CAPACITY];
    size_t n = vertices_of(graph);
    return relaypath_try_centroid_decomposition(graph->offsets.data, n + 1, graph->targets.data, graph->targets.len, parent, n, levels, n,
                                                work, sizeof work / sizeof *work);
}

/* Finds what must come out. Where it is no tree, each list is taken to need n entries. */
static void find(const struct graph *graph) {
    static uint32_t levels[CAPACITY];
    size_t n = vertices_of(graph);
    code_with_room = model_graph(&graph->offsets, &graph->targets, 0, SIZE_MAX);
    if (code_with_room == RELAYPATH_DONE && n > MODEL_VERTICES) {
        code_with_room = decomposed(graph, levels);
    } else if (code_with_room == RELAYPATH_DONE) {
        model_levels(&graph->offsets, &graph->targets, levels);
    }
    if (code_with_room == RELAYPATH_DONE) {
        model_lists(&graph->offsets, &graph->targets, levels, &model);
        return;
    }
    model.counts[VERTICES] = model.counts[DISTANCES] = model.counts[BRANCHES] = n;
    model.counts[STARTS] = n + 1;
}

/* How many entries of work the call uses: none where it is refused before work is known to be long enough. */
static size_t work_used(const struct graph *graph, const struct lent *l) {
    size_t room = RELAYPATH_WORK_ROOM(vertices_of(graph), graph->targets.len);
    return code_with_room == RELAYPATH_BAD_SIZE || l->work_len < room ? 0 : room;
}

/* "2 is tested second for work and for the table of starts, and once more at the end for the lists." */
static uint32_t wanted(const struct graph *graph, const struct lent *l) {
    if (code_with_room == RELAYPATH_BAD_SIZE) {
        return code_with_room;
    }
    if (work_used(graph, l) == 0 || l->lens[STARTS] < model.counts[STARTS]) {
        return RELAYPATH_NO_ROOM;
    }
    for (int list = VERTICES; code_with_room == RELAYPATH_DONE && list <= BRANCHES; list++) {
        if (l->lens[list] < model.counts[list]) {
            return RELAYPATH_NO_ROOM;
        }
    }
    return code_with_room;
}

/* Whether a list, or the starts, begins with so many entries of the model's and is unchanged past them. */
static bool holds(const struct lending *lending, const struct lent *l, int list, size_t count) {
    for (size_t i = 0; i < count; i++) {
        if (l->lists[list][i] != model.entries[list][i]) {
            return false;
        }
    }
    return are_marks(l->lists[list], count, l->lens[list], lending->salt);
}

/* Lends all seven. */
static void lend_all(const struct lending *lending, struct random *random, const struct graph *graph, struct lent *l) {
    l->offsets = lend(lending, &lending->rooms->offsets, &graph->offsets);
    l->targets = lend(lending, &lending->rooms->targets, &graph->targets);
    l->work_len = some_length(random, RELAYPATH_WORK_ROOM(vertices_of(graph), graph->targets.len));
    l->work = lend_marks(lending, &lending->rooms->work, l->work_len);
    for (int list = 0; list < LISTS; list++) {
        l->lens[list] = some_length(random, model.counts[list]);
        l->lists[list] = lend_marks(lending, &lending->rooms->lists[list], l->lens[list]);
    }
}

void run_components(const struct lending *lending, struct random random, const struct graph *graph) {
    static const char *const names[LISTS] = {"the vertices", "the distances", "the branches", "the starts"};
    struct lent l;
    find(graph);
    lend_all(lending, &random, graph, &l);
    begins(COMPONENT_LISTS);
    uint32_t code = relaypath_component_lists(l.offsets, graph->offsets.len, l.targets, graph->targets.len, l.lists[VERTICES],
                                              l.lens[VERTICES], l.lists[DISTANCES], l.lens[DISTANCES], l.lists[BRANCHES], l.lens[BRANCHES],
                                              l.lists[STARTS], l.lens[STARTS], l.work, l.work_len);
    ends(code);
    uint32_t want = wanted(graph, &l);
    judge(code == want, "the code");
    size_t used = work_used(graph, &l);
    judge(are_zero(l.work, used) && are_marks(l.work, used, l.work_len, lending->salt), "work afterwards");
    for (int list = 0; list < LISTS; list++) {
        judge(holds(lending, &l, list, want == RELAYPATH_DONE ? model.counts[list] : 0), names[list]);
    }
}
