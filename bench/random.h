/*
 * Numbers that look random and are the same on every machine and in every run: splitmix64 over a seed. C leaves it to the
 * compiler which argument of a call comes first, and which side of an assignment or of a sum, so at most one of them may draw
 * a number.
 */
#ifndef RANDOM_H
#define RANDOM_H

#include <stdbool.h>
#include <stdint.h>

struct random {
    uint64_t state;
};

/* The generator of one case: cases of one seed can be made one by one, in any order. */
static inline struct random random_for_case(uint64_t seed, uint64_t number)
{
    return (struct random){(seed << 32) ^ number * UINT64_C(0xD1B54A32D192ED03)};
}

static inline uint64_t any(struct random *random)
{
    uint64_t mixed = random->state += UINT64_C(0x9E3779B97F4A7C15);

    mixed = (mixed ^ mixed >> 30) * UINT64_C(0xBF58476D1CE4E5B9);
    mixed = (mixed ^ mixed >> 27) * UINT64_C(0x94D049BB133111EB);
    return mixed ^ mixed >> 31;
}

/* A number from 0 to limit - 1. */
static inline uint64_t below(struct random *random, uint64_t limit)
{
    return any(random) % limit;
}

/* A number from first to last. */
static inline uint64_t between(struct random *random, uint64_t first, uint64_t last)
{
    return first + below(random, last - first + 1);
}

static inline bool one_in(struct random *random, uint64_t times)
{
    return below(random, times) == 0;
}

/* Gives a byte another value. */
static inline void spoil(struct random *random, uint8_t *byte)
{
    *byte ^= (uint8_t)between(random, 1, 255);
}

#endif
