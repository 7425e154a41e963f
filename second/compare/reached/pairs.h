/* Each operator, and the numbers that its syllable can answer: how often each pair was met. */
#ifndef SECOND_PAIRS_H
#define SECOND_PAIRS_H

#include "../machine/operations.h"

/* Whether paper 01 can give the number to that syllable. */
bool pair_possible(enum operation operation, uint64_t number);
void pair_count(enum operation operation, uint64_t number);

/* Prints the table; answers how many pairs were not met, of how many. */
unsigned pairs_missing(void);
unsigned pairs_all(void);

#endif
