// A small seeded source of numbers, the same on every machine (the splitmix64 steps).
#ifndef RANDOM_H
#define RANDOM_H

#include <stdbool.h>
#include <stdint.h>

typedef struct {
    uint64_t state;
} Random;

// The next 64 bits.
static inline uint64_t random_next(Random *random) {
    random->state += 0x9E3779B97F4A7C15u;
    uint64_t bits = random->state;
    bits = (bits ^ (bits >> 30)) * 0xBF58476D1CE4E5B9u;
    bits = (bits ^ (bits >> 27)) * 0x94D049BB133111EBu;
    return bits ^ (bits >> 31);
}

// A number from 0 to bound - 1; the bound is at least 1.
static inline uint32_t random_below(Random *random, uint32_t bound) {
    return (uint32_t)(random_next(random) % bound);
}

// True in one of `count` cases.
static inline bool random_one_in(Random *random, uint32_t count) {
    return random_below(random, count) == 0;
}

#endif
