/* The calls that take a graph, work and tables of n entries. The component lists, whose lengths differ, are in components.c. */
#include "lend.h"
#include "report.h"
#include <relaypath.h>

/* A graph as it is lent to one call, with the lengths of what the call writes. */
struct lent {
    const uint32_t *offsets, *targets;
    size_t root, work_len, lens[TABLES];
    uint32_t *work, *tables[TABLES];
};

/* How many tables each of the calls writes. */
static int tables_of(enum call call) {
    return call == VALIDATE_TREE ? 0 : call == TRY_HLD ? TABLES : 2;
}

/* The call on what is lent. */
static uint32_t call_on(enum call call, const struct graph *graph, const struct lent *l) {
    size_t offsets_len = graph->offsets.len, targets_len = graph->targets.len;
    const size_t *n = l->lens;
    uint32_t *const *t = l->tables;
    switch (call) {
    case VALIDATE_TREE:
        return relaypath_validate_tree(l->offsets, offsets_len, l->targets, targets_len, l->root, l->work, l->work_len);
    case TRY_HLD:
        return relaypath_try_hld(l->offsets, offsets_len, l->targets, targets_len, l->root, t[0], n[0], t[1], n[1], t[2], n[2], t[3], n[3],
                                 t[4], n[4], t[5], n[5], l->work, l->work_len);
    default:
        return relaypath_try_centroid_decomposition(l->offsets, offsets_len, l->targets, targets_len, t[0], n[0], t[1], n[1], l->work,
                                                    l->work_len);
    }
}

/* The code that must be given. Past the model's reach it is 0 for a tree, and for others one of 0, 6, 7 and 8. */
static bool is_code(enum call call, uint32_t code, const struct graph *graph, const struct lent *l) {
    size_t n = graph->offsets.len < 2 ? 0 : graph->offsets.len - 1;
    uint32_t want = model_graph(&graph->offsets, &graph->targets, call == TRY_CENTROID_DECOMPOSITION ? 0 : l->root, l->work_len);
    for (int table = 0; table < tables_of(call); table++) {
        want = l->lens[table] != n ? RELAYPATH_BAD_SIZE : want;
    }
    if (n <= MODEL_VERTICES || want != RELAYPATH_DONE || graph->is_tree) {
        return code == want;
    }
    return code == RELAYPATH_DONE || (RELAYPATH_NOT_SYMMETRIC <= code && code <= RELAYPATH_HAS_CYCLE);
}

/* Work after 1 and 2 is unchanged; else its first 8n + E entries are zero, and the rest is unchanged. */
static bool work_is_kept(const struct lending *lending, uint32_t code, const struct graph *graph, const struct lent *l) {
    if (code == RELAYPATH_BAD_SIZE || code == RELAYPATH_NO_ROOM) {
        return are_marks(l->work, 0, l->work_len, lending->salt);
    }
    size_t room = RELAYPATH_WORK_ROOM(graph->offsets.len - 1, graph->targets.len);
    return are_zero(l->work, room) && are_marks(l->work, room, l->work_len, lending->salt);
}

/* A refusal writes no table. */
static bool tables_are_kept(const struct lending *lending, enum call call, const struct lent *l) {
    for (int table = 0; table < tables_of(call); table++) {
        if (!are_marks(l->tables[table], 0, l->lens[table], lending->salt)) {
            return false;
        }
    }
    return true;
}

/* A number that differs where the code or an entry of a table differs. */
static uint64_t sum(uint32_t code, enum call call, const struct lent *l) {
    uint64_t sum = code;
    for (int table = 0; table < tables_of(call); table++) {
        for (size_t v = 0; v < l->lens[table]; v++) {
            sum = mixed(sum + l->tables[table][v]);
        }
    }
    return sum;
}

/* Lengths of work and tables: mostly right, else short, long or anything. */
static void draw_lengths(struct random *random, const struct graph *graph, struct lent *l) {
    size_t n = graph->offsets.len < 2 ? 0 : graph->offsets.len - 1;
    l->work_len = some_length(random, RELAYPATH_WORK_ROOM(n, graph->targets.len));
    size_t odd = once_in(random, 6) ? below(random, TABLES) : TABLES;
    for (size_t table = 0; table < TABLES; table++) {
        const size_t others[] = {n + 1, n - (n > 0), 0, below(random, 40)};
        l->lens[table] = table == odd ? others[below(random, 4)] : n;
    }
}

void run_graph(const struct lending *lending, struct random random, const struct graph *graph) {
    static uint64_t sums[CALLS];
    struct lent l;
    draw_lengths(&random, graph, &l);
    l.root = some_argument(&random, graph->offsets.len < 2 ? 0 : graph->offsets.len - 1);
    l.offsets = lend(lending, &lending->rooms->offsets, &graph->offsets);
    l.targets = lend(lending, &lending->rooms->targets, &graph->targets);
    for (enum call call = VALIDATE_TREE; call <= TRY_CENTROID_DECOMPOSITION; call++) {
        l.work = lend_marks(lending, &lending->rooms->work, l.work_len);
        for (int table = 0; table < tables_of(call); table++) {
            l.tables[table] = lend_marks(lending, &lending->rooms->written[table], l.lens[table]);
        }
        begins(call);
        uint32_t code = call_on(call, graph, &l);
        ends(code);
        judge(is_code(call, code, graph, &l), "the code");
        judge(work_is_kept(lending, code, graph, &l), "work afterwards");
        judge(code == RELAYPATH_DONE || tables_are_kept(lending, call, &l), "a table after a refusal");
        uint64_t found = sum(code, call, &l);
        judge(lending->side == AT_END || found == sums[call] || code != RELAYPATH_DONE, "tables that differ by where they lie");
        sums[call] = found;
    }
}
