/* The numbers that the machine gives back, in words. */
#ifndef NUMBERS_H
#define NUMBERS_H

#include <stdint.h>

const char *number_text(uint64_t number);

#endif
