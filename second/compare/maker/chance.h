/* Numbers by chance, the same for the same seed. */
#ifndef SECOND_CHANCE_H
#define SECOND_CHANCE_H

#include <stdbool.h>
#include <stdint.h>

void chance_seed(uint64_t seed);
uint64_t chance(uint64_t below);

static inline bool one_in(uint64_t n) { return chance(n) == 0; }
static inline unsigned below(uint64_t n) { return (unsigned)chance(n); }

#endif
