/* The segment whose code is made. */
#include "code.h"
#include "emit.h"

struct segment *seg;
struct program *code;

void make_in(struct segment *segment)
{
    seg = segment;
    code = &segment->program;
}

void put(unsigned syllable, int more_items) { emit(code, syllable, more_items); }
