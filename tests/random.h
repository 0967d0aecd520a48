/* Random numbers that depend on nothing but the seed: Steele, Lea and Flood's SplitMix. No expression draws two of them
   in an order that C leaves open, so that a case is the same whatever the compiler. */
#ifndef RANDOM_H
#define RANDOM_H

#include <stddef.h>
#include <stdint.h>
#include <string.h>

extern uint64_t random_state;

static inline uint64_t random_bits(void) {
    uint64_t z = (random_state += 0x9E3779B97F4A7C15u);
    z = (z ^ (z >> 30)) * 0xBF58476D1CE4E5B9u;
    z = (z ^ (z >> 27)) * 0x94D049BB133111EBu;
    return z ^ (z >> 31);
}

static inline void start_random(uint64_t seed, uint64_t number) {
    random_state = seed * 0xD1342543DE82EF95u;
    random_state = random_bits() ^ number;
    random_state = random_bits();
}

/* A number from 0 to n - 1; n is at least 1. */
static inline uint32_t below(uint32_t n) { return (uint32_t)(((random_bits() >> 32) * n) >> 32); }

/* A number from low to high. */
static inline uint32_t from_to(uint32_t low, uint32_t high) { return low + below(high - low + 1); }

static inline int chance(uint32_t percent) { return below(100) < percent; }

/* Any word, the extremes often. */
static inline uint32_t any_word(void) {
    static const uint32_t edge[] = {0,          1,          2,          7,          8,         63,
                                    64,         255,        256,        4000,       4001,      0x3FFFFFFF,
                                    0x40000000, 0x7FFFFFFF, 0x80000000, 0xFFFFFFFE, 0xFFFFFFFF};
    if (chance(50)) return edge[below(sizeof edge / sizeof edge[0])];
    uint32_t shift = below(32);
    return (uint32_t)random_bits() >> shift;
}

static inline void fill_random(void *at, size_t bytes) {
    uint8_t *b = at;
    for (; bytes >= 8; bytes -= 8, b += 8) {
        uint64_t z = random_bits();
        memcpy(b, &z, 8);
    }
    for (uint64_t z = random_bits(); bytes > 0; bytes--, z >>= 8) *b++ = (uint8_t)z;
}

#endif
