/* The queries and the lists of ranges, on tables of any contents. */
#include "lend.h"
#include "report.h"
#include <relaypath.h>
#include <string.h>

/* The tables as they are lent. */
struct lent {
    const uint32_t *at[TABLES];
    size_t len[TABLES];
};

#define SIX l->at[0], l->len[0], l->at[1], l->len[1], l->at[2], l->len[2], l->at[3], l->len[3], l->at[4], l->len[4], l->at[5], l->len[5]

/* The numbers that a call may write. */
struct written {
    uint32_t *list;
    size_t list_len;
    size_t *first, *second;
};

/* The call on what is lent. */
static uint32_t call_on(enum call call, const struct lent *l, const size_t a[3], const struct written *w) {
    switch (call) {
    case VERTEX_COUNT:
        return relaypath_vertex_count(SIX, w->first);
    case ROOT:
        return relaypath_root(SIX, w->first);
    case DEPTH:
        return relaypath_depth(SIX, a[0], w->first);
    case VERTEX_ID:
        return relaypath_vertex_id(SIX, a[0], w->first);
    case DISTANCE:
        return relaypath_distance(SIX, a[0], a[1], w->first);
    case LCA:
        return relaypath_lca(SIX, a[0], a[1], a[2], w->first);
    case KTH_ANCESTOR:
        return relaypath_kth_ancestor(SIX, a[0], a[1], w->first);
    case JUMP:
        return relaypath_jump(SIX, a[0], a[1], a[2], w->first);
    case SUBTREE_SIZE:
        return relaypath_subtree_size(SIX, a[0], a[1], w->first);
    case SUBTREE_RANGE:
        return relaypath_subtree_range(SIX, a[0], w->first, w->second);
    case VERTEX_PATH_RANGES:
        return relaypath_vertex_path_ranges(SIX, a[0], a[1], w->list, w->list_len, w->first);
    case EDGE_PATH_RANGES:
        return relaypath_edge_path_ranges(SIX, a[0], a[1], w->list, w->list_len, w->first);
    default:
        return relaypath_vertex_edge_path_ranges(SIX, a[0], a[1], w->list, w->list_len, w->first);
    }
}

/* Whether a call lists ranges. */
static bool gives_list(enum call call) {
    return VERTEX_PATH_RANGES <= call && call <= VERTEX_EDGE_PATH_RANGES;
}

/* Whether the numbers lent for an answer hold it, and are unchanged where they are no part of it. */
static bool numbers_are(const struct lending *lending, enum call call, const struct answer *want, const struct written *w) {
    size_t before = number_mark(lending), first = before, second = before;
    if (want->code == 0) {
        first = gives_list(call) ? want->count / 3 : (size_t)want->numbers[0];
        second = call == SUBTREE_RANGE ? (size_t)want->numbers[1] : before;
    }
    return *w->first == first && *w->second == second;
}

/* Whether the list holds the ranges, and is unchanged past them. */
static bool list_is(const struct lending *lending, enum call call, const struct answer *want, const struct written *w) {
    size_t count = gives_list(call) && want->code == 0 ? want->count : 0;
    for (size_t i = 0; i < count; i++) {
        if (w->list[i] != want->numbers[i]) {
            return false;
        }
    }
    return are_marks(w->list, count, w->list_len, lending->salt);
}

/* Room for a list: mostly enough, else any. */
static size_t some_room(struct random *random, size_t n) {
    size_t enough = 3 * (2 * floor_log2(n == 0 ? 1 : n) + 1);
    return once_in(random, 3) ? below(random, enough + 1) : enough + below(random, 3);
}

/* Any query with any arguments. What it may not write is lent to it all the same and looked at afterwards. */
static void run_one(const struct lending *lending, struct random *random, const struct tables *tables, const struct lent *l) {
    enum call call = VERTEX_COUNT + (enum call)below(random, VERTEX_EDGE_PATH_RANGES - VERTEX_COUNT + 1);
    size_t n = tables->six[PARENT].len;
    const size_t arguments[3] = {some_argument(random, n), some_argument(random, n), some_argument(random, n)};
    struct written w;
    w.list_len = some_room(random, n);
    w.list = lend_marks(lending, &lending->rooms->list, w.list_len);
    w.first = lend_number(lending, 0);
    w.second = lend_number(lending, 1);
    struct answer want = model_query(call, tables->six, arguments);
    if (gives_list(call) && want.code == RELAYPATH_DONE && want.count > w.list_len) {
        want.code = RELAYPATH_NO_ROOM;
    }
    begins(call);
    uint32_t code = call_on(call, l, arguments, &w);
    ends(code);
    judge(code == want.code, "the code");
    judge(!tables->are_built || code != RELAYPATH_BAD_TABLE, "BadTable on built tables");
    judge(numbers_are(lending, call, &want, &w), "the answer's number");
    judge(list_is(lending, call, &want, &w), "the list");
}

/* So many queries on each set of tables. */
enum { QUERIES = 32 };

void run_queries(const struct lending *lending, struct random random, const struct tables *tables) {
    struct lent l;
    for (int table = 0; table < TABLES; table++) {
        l.at[table] = lend(lending, &lending->rooms->read[table], &tables->six[table]);
        l.len[table] = tables->six[table].len;
    }
    for (int i = 0; i < QUERIES; i++) {
        run_one(lending, &random, tables, &l);
    }
}
