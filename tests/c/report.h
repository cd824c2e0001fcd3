/* Which calls were run, and what was wrong. */
#ifndef REPORT_H
#define REPORT_H

#include <stdbool.h>
#include <stdint.h>

/* A new call gets its name here and in report.c. */
enum call {
    VALIDATE_TREE,
    TRY_HLD,
    TRY_CENTROID_DECOMPOSITION,
    COMPONENT_LISTS,
    VERTEX_COUNT,
    ROOT,
    DEPTH,
    VERTEX_ID,
    DISTANCE,
    LCA,
    KTH_ANCESTOR,
    JUMP,
    SUBTREE_SIZE,
    SUBTREE_RANGE,
    VERTEX_PATH_RANGES,
    EDGE_PATH_RANGES,
    VERTEX_EDGE_PATH_RANGES,
    RANGE_ROOM,
    RULE_PART,
    CENTROID_PARENT,
    CENTROID_LEVEL,
    CALLS
};

/* Catches faults and calls that do not end, and says in which call and round. */
void watch(void);

/* A round begins. Now and then this starts the clock for calls that do not end anew. */
void round_begins(uint64_t round);

/* A call begins, and ends with this code. */
void begins(enum call call);
void ends(uint32_t code);

/* Counts a wrong where this is not right, and says what it is. */
void judge(bool right, const char *what);

/* Prints the number of calls of each function, how often each code was given, and the last line. True where nothing was wrong. */
bool report(void);

#endif
