/*
 * The distance written by hand, with every test that the proved call makes. It
 * is no part of the library: `tests/speed --by-hand` puts it in the place of the
 * proved call, to tell what the tests cost from what the proved code adds.
 */
#include <relaypath.h>
#include <stdbool.h>

struct tables {
    const uint32_t *parent, *depth, *head, *id;
    uint32_t n;
};

/* A vertex that was reached, with what is read of it and of its head. */
struct place {
    uint32_t depth, id, head, top, first, up;
};

/* The head of the vertex x, whose depth and number were read: all tests but that the head hangs. */
static inline bool reach(const struct tables *t, uint32_t x, struct place *p) {
    p->head = t->head[x];
    if (t->n <= p->head) {
        return false;
    }
    p->top = t->depth[p->head];
    p->first = t->id[p->head];
    p->up = t->parent[p->head];
    return p->top <= p->depth && p->first <= p->id && p->id - p->first == p->depth - p->top;
}

static inline bool begin(const struct tables *t, uint32_t x, struct place *p) {
    p->depth = t->depth[x];
    p->id = t->id[x];
    return p->depth < t->n && p->id < t->n && reach(t, x, p);
}

/* Leaves the chain of p while `room`, n halved once for each chain left, is 2 or more. */
static inline bool leave(const struct tables *t, struct place *p, uint32_t *room) {
    uint32_t up = p->up;
    if (*room < 2 || t->n <= up) {
        return false;
    }
    *room >>= 1;
    p->depth = t->depth[up];
    if (p->depth + 1 != p->top) {
        return false;
    }
    p->id = t->id[up];
    return p->id < p->first && reach(t, up, p);
}

static inline bool hangs(const struct tables *t, const struct place *p) {
    if (p->up == RELAYPATH_NO_PARENT) {
        return p->top == 0;
    }
    return p->up < t->n && t->depth[p->up] + 1 == p->top && t->id[p->up] < p->first;
}

uint32_t relaypath_distance(const uint32_t *parent, size_t n,
                            const uint32_t *depth, size_t depth_len,
                            const uint32_t *head, size_t head_len,
                            const uint32_t *id, size_t id_len,
                            const uint32_t *order, size_t order_len,
                            const uint32_t *size, size_t size_len,
                            size_t u, size_t v, size_t *answer) {
    size_t uneven = (depth_len ^ n) | (head_len ^ n) | (id_len ^ n) | (order_len ^ n) | (size_len ^ n);
    struct tables t = {parent, depth, head, id, (uint32_t)n};
    struct place p, q;
    (void)order, (void)size;
    if (RELAYPATH_MAX_VERTICES <= n - 1 || uneven) {
        return RELAYPATH_BAD_SIZE;
    }
    if (n <= u || n <= v) {
        return RELAYPATH_BAD_VERTEX;
    }
    if (!begin(&t, (uint32_t)u, &p) || !begin(&t, (uint32_t)v, &q)) {
        return RELAYPATH_BAD_TABLE;
    }
    uint32_t from = p.depth, to = q.depth, p_room = t.n, q_room = t.n;
    while (p.head != q.head) {
        if (q.top <= p.top ? !leave(&t, &p, &p_room) : !leave(&t, &q, &q_room)) {
            return RELAYPATH_BAD_TABLE;
        }
    }
    if (!hangs(&t, &p)) {
        return RELAYPATH_BAD_TABLE;
    }
    *answer = (size_t)from + to - 2 * (size_t)(p.depth <= q.depth ? p.depth : q.depth);
    return RELAYPATH_DONE;
}
