/*
 * Runs every call of the library on random memory between guard pages, and holds each answer and all lent memory to document 01.
 *
 *   fuzz ROUNDS [SEED [FIRST]]
 *
 * A round has a graph for the builds and tables for the queries, each lent twice: flush against the guard page at its end, then flush
 * against the one at its start. A round depends on the seed and its own number alone, so one that went wrong is run again by itself: fuzz 1
 * SEED ROUND.
 */
#include "lend.h"
#include "report.h"
#include <stdio.h>
#include <stdlib.h>

/* One round. The drawing of arguments starts from the same number on both sides, so both sides run the same calls. */
static void run_round(const struct rooms *rooms, struct random random, struct graph *graph, struct tables *tables) {
    struct lending lending = {.rooms = rooms, .nulls = once_in(&random, 2), .salt = next(&random)};
    some_graph(&random, graph);
    for (lending.side = AT_END; lending.side < SIDES; lending.side++) {
        run_graph(&lending, random, graph);
        run_components(&lending, random, graph);
    }
    some_tables(&random, graph, tables);
    for (lending.side = AT_END; lending.side < SIDES; lending.side++) {
        run_queries(&lending, random, tables);
        run_others(&lending, random, tables);
    }
}

int main(int count, char **words) {
    if (count < 2 || count > 4) {
        fprintf(stderr, "fuzz ROUNDS [SEED [FIRST]]\n");
        return 2;
    }
    uint64_t rounds = strtoull(words[1], NULL, 10);
    uint64_t seed = count > 2 ? strtoull(words[2], NULL, 10) : 1;
    uint64_t first = count > 3 ? strtoull(words[3], NULL, 10) : 0;
    struct rooms rooms = rooms_open();
    static struct graph graph;
    static struct tables tables;
    graph_open(&graph);
    tables_open(&tables);
    watch();
    for (uint64_t round = first; round < first + rounds; round++) {
        struct random random = {.state = mixed(seed) + mixed(round)};
        round_begins(round);
        run_round(&rooms, random, &graph, &tables);
    }
    return report() ? 0 : 1;
}
