/* splitmix64 */
#include "chance.h"

static uint64_t seeded;

void chance_seed(uint64_t seed) { seeded = seed; }

static uint64_t chance_bits(void)
{
    uint64_t x = seeded += UINT64_C(0x9E3779B97F4A7C15);
    x = (x ^ x >> 30) * UINT64_C(0xBF58476D1CE4E5B9);
    x = (x ^ x >> 27) * UINT64_C(0x94D049BB133111EB);
    return x ^ x >> 31;
}

uint64_t chance(uint64_t below) { return chance_bits() % below; }
