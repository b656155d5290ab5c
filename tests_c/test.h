/* What the C tests share: a check that names its line, and random numbers that are the same on each run. */
#ifndef TEST_H
#define TEST_H
#include "pilhangko.h"
#include <stdio.h>
#include <stdlib.h>

#define CHECK(what) \
    do { \
        if (!(what)) { \
            fprintf(stderr, "%s:%d: %s\n", __FILE__, __LINE__, #what); \
            exit(1); \
        } \
    } while (0)

#define IS(call, expected) \
    do { \
        pilhangko_status got_ = (call), wanted_ = (expected); \
        if (got_ != wanted_) { \
            fprintf(stderr, "%s:%d: %s: %s, not %s\n", __FILE__, __LINE__, #call, pilhangko_status_text(got_), \
                pilhangko_status_text(wanted_)); \
            exit(1); \
        } \
    } while (0)

/* splitmix64 */
static uint64_t random_state;
static inline uint64_t random_number(void) {
    uint64_t z = (random_state += 0x9E3779B97F4A7C15u);
    z = (z ^ (z >> 30)) * 0xBF58476D1CE4E5B9u;
    z = (z ^ (z >> 27)) * 0x94D049BB133111EBu;
    return z ^ (z >> 31);
}
static inline uint64_t random_below(uint64_t n) {
    return random_number() % n;
}
#endif
