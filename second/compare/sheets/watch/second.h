/* The second machine's trace, each fetch and write held to the sheet as it is made. */
#ifndef SECOND_TRACE_H
#define SECOND_TRACE_H

#include "done.h"

void second_begin(const struct segment *seg);
struct done second_one_step(void);
/* A word of its core as it stands. */
uint64_t second_word(uint64_t address);

#endif
