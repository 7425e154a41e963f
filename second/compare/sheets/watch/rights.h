/* Demand 3: what a sheet lets its segment do with each word, the registers it keeps, the stops it may meet. */
#ifndef SECOND_RIGHTS_H
#define SECOND_RIGHTS_H

#include "../making/segment.h"

void read_rights(const struct segment *seg);

bool may_fetch(uint64_t address);
bool may_write(uint64_t address);
/* A number cell or a word of an array: its flag is off. */
bool is_number(uint64_t address);
bool numbers_plain(const uint64_t *core);
/* The registers that no passed segment changes, and S in its room. */
bool registers_kept(const struct second_registers *g);
bool may_answer(uint64_t number);

#endif
