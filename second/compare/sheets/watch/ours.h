/* Our machine's trace: the cabinet's steps from a sheet's start, each held to the sheet. */
#ifndef SECOND_OURS_H
#define SECOND_OURS_H

#include "done.h"

void ours_begin(const struct segment *seg);
struct done ours_step(void);
/* A word of its core as it stands. */
uint64_t ours_word(uint64_t address);

#endif
