/* Operand call and descriptor call. */
#ifndef SECOND_WHY_CALL_H
#define SECOND_WHY_CALL_H

#include "look.h"

enum cause call(struct look *l, uint64_t k, bool descriptor_call);

#endif
