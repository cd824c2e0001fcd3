/* Range room, rule parts and the reads of a decomposition's tables. */
#include "lend.h"
#include "report.h"
#include <relaypath.h>

/* A number of vertices, within the limit and beyond. */
static void run_room(const struct lending *lending, struct random *random) {
    size_t n = some_argument(random, once_in(random, 2) ? 40 : RELAYPATH_MAX_VERTICES + 1);
    size_t *answer = lend_number(lending, 0);
    begins(RANGE_ROOM);
    uint32_t code = relaypath_range_room(n, answer);
    ends(code);
    bool refused = n < 1 || n > RELAYPATH_MAX_VERTICES;
    judge(code == (refused ? RELAYPATH_BAD_SIZE : RELAYPATH_DONE), "the code");
    judge(*answer == (refused ? number_mark(lending) : 2 * floor_log2(n) + 1), "the answer's number");
}

/* Two stores of one length or of two, and a range in them or beyond. */
static void run_part(const struct lending *lending, struct random *random, const struct tables *tables) {
    const struct array *first = &tables->six[ID], *second = &tables->six[ORDER];
    const struct array *store = once_in(random, 8) ? &tables->six[SIZE] : second;
    const uint32_t *a = lend(lending, &lending->rooms->read[ID], first), *b = lend(lending, &lending->rooms->read[ORDER], store);
    size_t m = first->len, start = some_argument(random, m + 1), end = some_argument(random, m + 1);
    uint32_t direction = once_in(random, 8) ? (uint32_t)next(random) : (uint32_t)below(random, 2);
    size_t *place = lend_number(lending, 0);
    begins(RULE_PART);
    size_t count = relaypath_rule_part(a, m, b, store->len, start, end, direction, place);
    ends(RELAYPATH_DONE);
    bool named = m == store->len && m <= RELAYPATH_MAX_VERTICES && start < end && end <= m && direction <= RELAYPATH_REVERSED;
    judge(count == (named ? end - start : 0), "the part's length");
    judge(*place == (!named ? 0 : direction == RELAYPATH_FORWARD ? start : m - end), "the part's place");
}

/* Two tables of one length or of two stand in for a decomposition, since its reads take any contents. */
static void run_entry(const struct lending *lending, struct random *random, const struct tables *tables) {
    const struct array *parent = &tables->six[PARENT], *level = &tables->six[DEPTHS];
    const uint32_t *a = lend(lending, &lending->rooms->read[PARENT], parent), *b = lend(lending, &lending->rooms->read[DEPTHS], level);
    bool asks_parent = once_in(random, 2);
    size_t n = parent->len, v = some_argument(random, n);
    uint32_t *answer = lend_marks(lending, &lending->rooms->list, 1), code;
    if (asks_parent) {
        begins(CENTROID_PARENT);
        code = relaypath_centroid_parent(a, n, b, level->len, v, answer);
    } else {
        begins(CENTROID_LEVEL);
        code = relaypath_centroid_level(a, n, b, level->len, v, answer);
    }
    ends(code);
    bool bad_size = n < 1 || n > RELAYPATH_MAX_VERTICES || n != level->len;
    uint32_t want = bad_size ? RELAYPATH_BAD_SIZE : v >= n ? RELAYPATH_BAD_VERTEX : RELAYPATH_DONE;
    judge(code == want, "the code");
    uint32_t entry = want != RELAYPATH_DONE ? mark(0, lending->salt) : asks_parent ? parent->data[v] : level->data[v];
    judge(*answer == entry, "the answer's number");
}

void run_others(const struct lending *lending, struct random random, const struct tables *tables) {
    for (int i = 0; i < 4; i++) {
        run_room(lending, &random);
        run_part(lending, &random, tables);
        run_entry(lending, &random, tables);
    }
}
