/* Numbers by seed (splitmix64): the same on every machine and with every C library. */
#ifndef OCTALMURE_CHANCE_H
#define OCTALMURE_CHANCE_H

#include <stdbool.h>
#include <stdint.h>

typedef struct {
    uint64_t state;
} Chance;

static inline uint64_t chance_next(Chance *chance) {
    uint64_t z = chance->state += UINT64_C(0x9E3779B97F4A7C15);
    z = (z ^ z >> 30) * UINT64_C(0xBF58476D1CE4E5B9);
    z = (z ^ z >> 27) * UINT64_C(0x94D049BB133111EB);
    return z ^ z >> 31;
}

static inline Chance chance_of(uint64_t seed, uint64_t number) {
    Chance chance = {seed};
    chance.state = chance_next(&chance) ^ number * UINT64_C(0xD1342543DE82EF95);
    chance.state = chance_next(&chance);
    return chance;
}

/* A number below the bound; the bound is at least 1. */
static inline uint32_t below(Chance *chance, uint64_t bound) {
    return (uint32_t)((chance_next(chance) >> 16) % bound);
}

/* A number from low to high, both counted in; low where high is less. */
static inline uint32_t between(Chance *chance, uint32_t low, uint32_t high) {
    return high <= low ? low : low + below(chance, (uint64_t)high - low + 1);
}

static inline bool one_in(Chance *chance, uint32_t bound) {
    return below(chance, bound) == 0;
}

#endif
