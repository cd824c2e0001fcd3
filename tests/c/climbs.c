/* Climbs and ancestors on any six tables, after "Sound entries" of document 01. */
#include "climbs.h"
#include <relaypath.h>

const struct array *tables;
uint64_t n;

uint64_t at(int table, uint64_t place) {
    return tables[table].data[place];
}

size_t floor_log2(size_t n) {
    size_t log = 0;
    while (n >> (log + 1) != 0) {
        log++;
    }
    return log;
}

struct answer refused(uint32_t code) {
    struct answer answer = {.code = code};
    return answer;
}

struct answer is(uint64_t number) {
    struct answer answer = {.code = 0, .count = 1, .numbers = {number}};
    return answer;
}

/*
 * "h < n; depth(h) ≤ depth(x) < n; id(h) ≤ id(x) < n; id(x)−id(h) = depth(x)−depth(h); and either h has no parent and depth 0, or its
 * parent p is below n, depth(p)+1 = depth(h) and id(p) < id(h)". Sums are in 64 bits, so none wraps.
 */
bool sound(uint64_t x) {
    uint64_t h = at(HEAD, x);
    if (h >= n || at(DEPTHS, h) > at(DEPTHS, x) || at(DEPTHS, x) >= n || at(ID, h) > at(ID, x) || at(ID, x) >= n) {
        return false;
    }
    if (at(ID, x) - at(ID, h) != at(DEPTHS, x) - at(DEPTHS, h)) {
        return false;
    }
    uint64_t p = at(PARENT, h);
    if (p == RELAYPATH_NO_PARENT) {
        return at(DEPTHS, h) == 0;
    }
    return p < n && at(DEPTHS, p) + 1 == at(DEPTHS, h) && at(ID, p) < at(ID, h);
}

/* "A size used must be 1 or more with id+size ≤ n." */
bool size_fits(uint64_t x) {
    return at(SIZE, x) >= 1 && at(ID, x) + at(SIZE, x) <= n;
}

/*
 * While heads differ, the side with the deeper head moves, u on a tie. It is refused at a parentless head, and once its side has left
 * floor(log2 n) chains.
 */
struct climb climb(uint64_t u, uint64_t v) {
    struct climb c = {.end = {u, v}};
    c.refused = !sound(u) || !sound(v);
    while (!c.refused && at(HEAD, c.end[0]) != at(HEAD, c.end[1])) {
        int side = at(DEPTHS, at(HEAD, c.end[0])) >= at(DEPTHS, at(HEAD, c.end[1])) ? 0 : 1;
        uint64_t x = c.end[side], h = at(HEAD, x);
        if (at(PARENT, h) == RELAYPATH_NO_PARENT || c.left[side] == floor_log2(n)) {
            c.refused = true;
            break;
        }
        c.ranges[side][c.left[side]][0] = at(ID, h);
        c.ranges[side][c.left[side]][1] = at(ID, x) + 1;
        c.left[side]++;
        c.end[side] = at(PARENT, h);
        c.refused = !sound(c.end[side]);
    }
    return c;
}

uint64_t ancestor(const struct climb *c) {
    return at(DEPTHS, c->end[0]) <= at(DEPTHS, c->end[1]) ? c->end[0] : c->end[1];
}

/* The order entry must be "below n, with the id looked up and the depth climbed to"; a parentless head that must be left is too far. */
struct answer kth_ancestor(uint64_t x, uint64_t k) {
    for (size_t left = 0;; left++) {
        if (!sound(x)) {
            return refused(9);
        }
        uint64_t h = at(HEAD, x), above = at(DEPTHS, x) - at(DEPTHS, h);
        if (k <= above) {
            uint64_t i = at(ID, x) - k, y = at(ORDER, i);
            bool right = y < n && at(ID, y) == i && at(DEPTHS, y) == at(DEPTHS, x) - k;
            return right ? is(y) : refused(9);
        }
        if (at(PARENT, h) == RELAYPATH_NO_PARENT) {
            return refused(10);
        }
        if (left == floor_log2(n)) {
            return refused(9);
        }
        k -= above + 1;
        x = at(PARENT, h);
    }
}
