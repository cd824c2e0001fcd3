#define _GNU_SOURCE
#include "report.h"
#include <signal.h>
#include <stdio.h>
#include <string.h>
#include <unistd.h>

static const char *const names[CALLS] = {
    "validate_tree",
    "try_hld",
    "try_centroid_decomposition",
    "component_lists",
    "vertex_count",
    "root",
    "depth",
    "vertex_id",
    "distance",
    "lca",
    "kth_ancestor",
    "jump",
    "subtree_size",
    "subtree_range",
    "vertex_path_ranges",
    "edge_path_ranges",
    "vertex_edge_path_ranges",
    "range_room",
    "rule_part",
    "centroid_parent",
    "centroid_level",
};

/* Seconds that some rounds may take together. */
enum { PATIENCE = 120, ROUNDS_WATCHED = 256, WRONGS_PRINTED = 20, CODES = 11 };

static uint64_t counts[CALLS][CODES];
static uint64_t wrongs;
static volatile uint64_t current_round;
static volatile enum call current_call;
static volatile bool inside;

/* A fault may come at any place, so this makes its line with care and writes it at once. */
static void fault(int number) {
    char line[200];
    const char *what = number == SIGALRM ? "did not end" : "fault", *where = inside ? "in" : "in the test after";
    int length = snprintf(line, sizeof line, "fuzz: wrong: round %llu: %s %s relaypath_%s (signal %d)\n", (unsigned long long)current_round,
                          what, where, names[current_call], number);
    if (write(1, line, (size_t)length) < 0) {
        _exit(3);
    }
    _exit(1);
}

void watch(void) {
    static const int watched[] = {SIGSEGV, SIGBUS, SIGILL, SIGFPE, SIGTRAP, SIGABRT, SIGALRM};
    struct sigaction action;
    memset(&action, 0, sizeof action);
    action.sa_handler = fault;
    for (size_t i = 0; i < sizeof watched / sizeof *watched; i++) {
        sigaction(watched[i], &action, NULL);
    }
}

void round_begins(uint64_t round) {
    current_round = round;
    if (round % ROUNDS_WATCHED == 0) {
        alarm(PATIENCE);
    }
}

void begins(enum call call) {
    current_call = call;
    inside = true;
}

void ends(uint32_t code) {
    inside = false;
    judge(code < CODES, "no code has this number");
    counts[current_call][code % CODES]++;
}

void judge(bool right, const char *what) {
    if (right) {
        return;
    }
    wrongs++;
    if (wrongs <= WRONGS_PRINTED) {
        printf("fuzz: wrong: relaypath_%s, round %llu: %s\n", names[current_call], (unsigned long long)current_round, what);
    }
}

/* The line of one function. Answers the number of its calls. */
static uint64_t report_call(enum call call) {
    uint64_t calls = 0;
    for (int code = 0; code < CODES; code++) {
        calls += counts[call][code];
    }
    printf("%12llu  relaypath_%-27s codes", (unsigned long long)calls, names[call]);
    for (int code = 0; code < CODES; code++) {
        if (counts[call][code] != 0) {
            printf(" %d:%llu", code, (unsigned long long)counts[call][code]);
        }
    }
    printf("\n");
    return calls;
}

bool report(void) {
    uint64_t calls = 0;
    for (enum call call = 0; call < CALLS; call++) {
        calls += report_call(call);
    }
    printf("fuzz: %llu calls, %llu wrong\n", (unsigned long long)calls, (unsigned long long)wrongs);
    return wrongs == 0;
}
