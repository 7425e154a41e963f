/* The address of k, and A's place. */
#ifndef SECOND_WHY_ADDRESS_H
#define SECOND_WHY_ADDRESS_H

#include "look.h"

/* The address is in core if there is no cause. */
enum cause address_of_k(const struct look *l, uint64_t k, uint64_t *address);
enum cause place_of_a(const struct look *l);

#endif
