/* Chance for tests of the library for C: the same numbers from the same beginning, on any machine.
 */
#ifndef EMBED_CHANCE_H
#define EMBED_CHANCE_H

#include <stdint.h>

/* A linear congruential generator (Knuth's MMIX constants), of which the high bits are used. */
static uint64_t chance = 0;

static inline uint32_t random_word(void)
{
    chance = chance * 6364136223846793005u + 1442695040888963407u;
    return (uint32_t)(chance >> 32);
}

/* A number below `limit`. */
static inline uint32_t below(uint32_t limit)
{
    return random_word() % limit;
}

#endif
