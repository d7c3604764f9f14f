/*
 * Chance: the same numbers for the same seed, on every machine. So that they mean the same there, no expression asks twice where C leaves
 * it open which is first.
 */

#include "host.h"

static uint64_t chance;

/* Each seed begins elsewhere, and none with 0, from which there is no way on. */
void chance_seed(uint64_t seed)
{
    chance = seed * UINT64_C(0x9e3779b97f4a7c15) | 1;
}

uint32_t chance_any(void)
{
    chance ^= chance << 13;
    chance ^= chance >> 7;
    chance ^= chance << 17;
    return (uint32_t)(chance >> 32);
}

uint32_t chance_below(uint32_t bound)
{
    return (uint32_t)((uint64_t)chance_any() * bound >> 32);
}

bool chance_one_in(uint32_t bound)
{
    return chance_below(bound) == 0;
}

void chance_turn_bit(uint8_t *bytes, size_t length)
{
    uint32_t at = chance_below((uint32_t)length);

    bytes[at] ^= (uint8_t)(1 << chance_below(8));
}

void chance_fill(uint8_t *bytes, size_t length)
{
    for (size_t i = 0; i < length; i++)
        bytes[i] = (uint8_t)chance_any();
}

size_t chance_near(size_t needed, size_t most)
{
    size_t length = chance_one_in(2) ? needed - 1 + chance_below(3) : chance_below((uint32_t)most + 1);

    return chance_one_in(8) ? 0 : length;
}
