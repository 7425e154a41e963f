/* Syllables by chance. */
#ifndef SECOND_SYLLABLES_H
#define SECOND_SYLLABLES_H

#include "../machine/state.h"

/* A number k whose address is mostly near a word of core, by each pattern. */
uint64_t chance_k(const struct state *st);
/* Any syllable, mostly one that is built. */
unsigned chance_syllable(const struct state *st);

#endif
