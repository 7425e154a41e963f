/* Why a state stops, by paper 01's sentences and by neither machine. */
#ifndef SECOND_WHY_H
#define SECOND_WHY_H

#include "../reached/causes.h"

/* No cause where the syllable completes, COM's too. */
enum cause cause_of(const struct state *st);

#endif
