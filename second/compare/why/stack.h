/* Push, pop and the adjustments. */
#ifndef SECOND_WHY_STACK_H
#define SECOND_WHY_STACK_H

#include "look.h"

/* `meets` and `at_0` are the first of the site's two causes. */
enum cause push(struct look *l, uint64_t word, enum cause meets);
enum cause push_b(struct look *l, enum cause meets);

enum cause empty_a(struct look *l);
enum cause fill_a(struct look *l);
enum cause fill_b(struct look *l, enum cause at_0);
enum cause fill_both(struct look *l);

#endif
