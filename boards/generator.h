/* generator.h: random numbers that are the same on each board; programs that use them are compiled with -ffp-contract=off. */
#ifndef GENERATOR_H
#define GENERATOR_H

#include <stdint.h>
#include <string.h>

/* xorshift64 */
static uint64_t state = 88172645463325252u;

static inline uint64_t next(void) {
    state ^= state << 13;
    state ^= state >> 7;
    state ^= state << 17;
    return state;
}

static inline uint64_t below(uint64_t n) { return (next() >> 11) % n; }

static inline double between(double from, double to) { return from + (to - from) * ((double)(int64_t)(next() >> 11) / 9007199254740992.0); }

static inline double from_bits(uint64_t bits) {
    double x;
    memcpy(&x, &bits, sizeof x);
    return x;
}

static inline uint64_t bits_of(double x) {
    uint64_t bits;
    memcpy(&bits, &x, sizeof bits);
    return bits;
}

#endif
