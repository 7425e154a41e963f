/* Addresses and words by chance, biased to the edges of paper 01's sentences. */
#ifndef SECOND_CHANCE_WORDS_H
#define SECOND_CHANCE_WORDS_H

#include "../machine/state.h"
#include "chance.h"

/* Mostly in core, often at an end of it. */
uint64_t chance_address(const struct state *st);
uint64_t chance_r(const struct state *st);

uint64_t chance_operand(void);
uint64_t chance_program_descriptor(const struct state *st);
uint64_t chance_mark(const struct state *st);
uint64_t chance_return(const struct state *st);
/* Of any kind. */
uint64_t chance_word(const struct state *st);

#endif
