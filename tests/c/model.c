/* Queries and ranges on any six tables, after "Definitions" and "Sound entries" of document 01. */
#include "climbs.h"
#include <relaypath.h>

/* The distance, or the vertex k steps from u on the way to v. */
static struct answer between(uint64_t u, uint64_t v, bool jump, uint64_t k) {
    struct climb c = climb(u, v);
    if (c.refused) {
        return refused(9);
    }
    uint64_t top = at(DEPTHS, ancestor(&c)), up = at(DEPTHS, u) - top, down = at(DEPTHS, v) - top;
    if (!jump) {
        return is(up + down);
    }
    if (k > up + down) {
        return refused(10);
    }
    return k <= up ? kth_ancestor(u, k) : kth_ancestor(v, up + down - k);
}

/* "Of the candidates for (u,v), (r,u), (r,v) the last deepest." */
static struct answer lca(uint64_t r, uint64_t u, uint64_t v) {
    const uint64_t pairs[3][2] = {{u, v}, {r, u}, {r, v}};
    struct answer deepest = refused(9);
    for (int i = 0; i < 3; i++) {
        struct climb c = climb(pairs[i][0], pairs[i][1]);
        if (c.refused) {
            return refused(9);
        }
        uint64_t a = ancestor(&c);
        if (i == 0 || at(DEPTHS, a) >= at(DEPTHS, deepest.numbers[0])) {
            deepest = is(a);
        }
    }
    return deepest;
}

/* "A re-rooted size needs depth(r) > depth(v) where r ≠ v lies in v's range." */
static struct answer subtree_size(uint64_t r, uint64_t v) {
    if (!sound(r) || !sound(v)) {
        return refused(9);
    }
    if (r == v) {
        return is(n);
    }
    if (!size_fits(v)) {
        return refused(9);
    }
    if (at(ID, r) < at(ID, v) || at(ID, r) >= at(ID, v) + at(SIZE, v)) {
        return is(at(SIZE, v));
    }
    if (at(DEPTHS, r) <= at(DEPTHS, v)) {
        return refused(9);
    }
    struct answer child = kth_ancestor(r, at(DEPTHS, r) - at(DEPTHS, v) - 1);
    if (child.code != 0) {
        return child;
    }
    return size_fits(child.numbers[0]) ? is(n - at(SIZE, child.numbers[0])) : refused(9);
}

/* One more range of a list. Ranges of both kinds are doubled, and edges lose the ancestor in the last chain. */
static void add(struct answer *list, enum call call, const uint64_t range[2], bool last, uint64_t direction) {
    uint64_t l = range[0], r = range[1];
    if (call == EDGE_PATH_RANGES && last) {
        l++;
    }
    if (call == VERTEX_EDGE_PATH_RANGES) {
        l = last ? 2 * l : 2 * l - 1;
        r = 2 * r - 1;
    }
    if (l < r) {
        list->numbers[list->count++] = l;
        list->numbers[list->count++] = r;
        list->numbers[list->count++] = direction;
    }
}

/* The u side climbs chain by chain, then comes the last chain, then the v side in turned order. */
static struct answer ranges(enum call call, uint64_t u, uint64_t v) {
    struct climb c = climb(u, v);
    struct answer list = refused(c.refused ? 9 : 0);
    if (c.refused) {
        return list;
    }
    for (size_t i = 0; i < c.left[0]; i++) {
        add(&list, call, c.ranges[0][i], false, RELAYPATH_REVERSED);
    }
    uint64_t a = at(ID, c.end[0]), b = at(ID, c.end[1]);
    const uint64_t last[2] = {a < b ? a : b, (a < b ? b : a) + 1};
    add(&list, call, last, true, b < a ? RELAYPATH_REVERSED : RELAYPATH_FORWARD);
    for (size_t i = c.left[1]; i > 0; i--) {
        add(&list, call, c.ranges[1][i - 1], false, RELAYPATH_FORWARD);
    }
    return list;
}

/* The number of vertex arguments of a call. */
static int vertices_of(enum call call) {
    switch (call) {
    case VERTEX_COUNT:
    case ROOT:
        return 0;
    case DEPTH:
    case VERTEX_ID:
    case KTH_ANCESTOR:
    case SUBTREE_RANGE:
        return 1;
    case LCA:
        return 3;
    default:
        return 2;
    }
}

/* A read of the tables at one vertex. */
static struct answer single(enum call call, uint64_t v) {
    if (!sound(v) || (call == SUBTREE_RANGE && !size_fits(v))) {
        return refused(9);
    }
    struct answer answer = is(call == DEPTH ? at(DEPTHS, v) : at(ID, v));
    if (call == SUBTREE_RANGE) {
        answer.numbers[answer.count++] = at(ID, v) + at(SIZE, v);
    }
    return answer;
}

/* The query itself, after the tests of sizes and arguments. */
static struct answer asked(enum call call, uint64_t a, uint64_t b, uint64_t c) {
    switch (call) {
    case VERTEX_COUNT:
        return is(n);
    case ROOT:
        return at(ORDER, 0) < n && sound(at(ORDER, 0)) ? is(at(ORDER, 0)) : refused(9);
    case DEPTH:
    case VERTEX_ID:
    case SUBTREE_RANGE:
        return single(call, a);
    case DISTANCE:
        return between(a, b, false, 0);
    case LCA:
        return lca(a, b, c);
    case KTH_ANCESTOR:
        return kth_ancestor(a, b);
    case JUMP:
        return between(a, b, true, c);
    case SUBTREE_SIZE:
        return subtree_size(a, b);
    default:
        return ranges(call, a, b);
    }
}

struct answer model_query(enum call call, const struct array six[TABLES], const size_t arguments[3]) {
    tables = six;
    n = six[PARENT].len;
    if (n < 1 || n > RELAYPATH_MAX_VERTICES) {
        return refused(1);
    }
    for (int table = 0; table < TABLES; table++) {
        if (six[table].len != n) {
            return refused(1);
        }
    }
    for (int i = 0; i < vertices_of(call); i++) {
        if (arguments[i] >= n) {
            return refused(4);
        }
    }
    return asked(call, arguments[0], arguments[1], arguments[2]);
}
