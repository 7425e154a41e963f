/* The syllable that a state obeys, with what brings it to an edge. */
#ifndef SECOND_SCENES_H
#define SECOND_SCENES_H

#include "../machine/state.h"

/* The syllable; at times it changes registers and words. */
unsigned chance_scene(struct state *st);

#endif
