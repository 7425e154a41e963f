/* States by chance. */
#ifndef SECOND_STATES_H
#define SECOND_STATES_H

#include "../machine/state.h"

void chance_state(struct state *st);

#endif
