/* Random numbers from a fixed start, so that each run has the same cases (the generator is splitmix64). */
#ifndef RANDOM_H
#define RANDOM_H

#include <stdbool.h>
#include <stddef.h>
#include <stdint.h>

struct random {
    uint64_t state;
};

static inline uint64_t mixed(uint64_t z) {
    z = (z ^ (z >> 30)) * UINT64_C(0xBF58476D1CE4E5B9);
    z = (z ^ (z >> 27)) * UINT64_C(0x94D049BB133111EB);
    return z ^ (z >> 31);
}

static inline uint64_t next(struct random *random) {
    random->state += UINT64_C(0x9E3779B97F4A7C15);
    return mixed(random->state);
}

/* A number below the limit, which is at least 1. */
static inline size_t below(struct random *random, size_t limit) {
    return (size_t)(next(random) % limit);
}

/* True once in so many times. */
static inline bool once_in(struct random *random, size_t times) {
    return below(random, times) == 0;
}

#endif
