/* Programs by chance: code from word 0 on, stack below or above the table, cells of every kind. */
#ifndef SECOND_PROGRAMS_H
#define SECOND_PROGRAMS_H

#include "../machine/state.h"

void chance_program(struct state *st);

#endif
