/*
 * A tree of seven relays, two queries, and the ranges of a path.
 *
 *   cc -std=c99 -Iinclude examples/c/paths.c target/staticlib/librelaypath.a -o target/paths && target/paths
 *
 * is run at the top of the repository, after `tests/archive`.
 */
#include <relaypath.h>
#include <stdio.h>
#include <stdlib.h>

/* The lists 0:4,1,5; 1:0,2,3; 2:1; 3:1,6; 4:0; 5:0; 6:3. */
enum { N = 7, E = 12 };
static const uint32_t offsets[N + 1] = {0, 3, 6, 7, 9, 10, 11, 12};
static const uint32_t targets[E] = {4, 1, 5, 0, 2, 3, 1, 1, 6, 0, 0, 3};

static uint32_t parent[N], depth[N], head[N], id[N], order[N], size[N];
static uint32_t work[RELAYPATH_WORK_ROOM(N, E)];

/* The six tables as the calls take them. */
#define TABLES parent, N, depth, N, head, N, id, N, order, N, size, N

/* Seven vertices need at most 2 * floor(log2 7) + 1 = 5 ranges of three numbers. */
enum { LIST = 15 };
static uint32_t list[LIST];

/* Ends the program where a call was refused. */
static void done(uint32_t code) {
    if (code != RELAYPATH_DONE) {
        printf("refused: %u\n", (unsigned)code);
        exit(1);
    }
}

/* Prints ranges as start-end with R or F. */
static void print_ranges(const char *what, size_t count) {
    printf("%s from 6 to 4:", what);
    for (size_t i = 0; i < count; i++) {
        const uint32_t *range = list + 3 * i;
        char direction = range[2] == RELAYPATH_REVERSED ? 'R' : 'F';
        printf(" %u-%u%c", (unsigned)range[0], (unsigned)range[1], direction);
    }
    printf("\n");
}

/* Prints the relays of the path in order: each range is read in its direction, and the order table gives the relay with a number. */
static void print_relays(size_t count) {
    printf("relays:");
    for (size_t i = 0; i < count; i++) {
        const uint32_t *range = list + 3 * i;
        for (uint32_t step = 0; step < range[1] - range[0]; step++) {
            uint32_t number = range[2] == RELAYPATH_REVERSED ? range[1] - 1 - step : range[0] + step;
            printf(" %u", (unsigned)order[number]);
        }
    }
    printf("\n");
}

int main(void) {
    done(relaypath_try_hld(offsets, N + 1, targets, E, 0, TABLES, work, sizeof work / sizeof *work));
    size_t answer, count;
    done(relaypath_root(TABLES, &answer));
    printf("relays %d, root %zu\n", N, answer);

    done(relaypath_distance(TABLES, 6, 4, &answer));
    printf("distance from 6 to 4: %zu\n", answer);
    done(relaypath_lca(TABLES, 6, 2, 4, &answer));
    printf("seen from relay 6, the paths to 2 and to 4 part at %zu\n", answer);

    done(relaypath_vertex_path_ranges(TABLES, 6, 4, list, LIST, &count));
    print_ranges("vertices", count);
    print_relays(count);
    done(relaypath_edge_path_ranges(TABLES, 6, 4, list, LIST, &count));
    print_ranges("edges", count);
    return 0;
}
