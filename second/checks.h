/* The checks that come before everything, written from paper 01 alone. */
#ifndef SECOND_CHECKS_H
#define SECOND_CHECKS_H

#include "fifty_five_second.h"

/* Checks 1 and 2, in that order. */
int second_check_core(const uint64_t *core, size_t length);

/* Checks 1, 2 and 3, in that order. */
int second_check_state(const uint64_t *core, size_t length,
                       const struct second_registers *g);

#endif
