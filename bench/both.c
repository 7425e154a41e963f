/* One state in both machines' forms: six-byte words, and 64-bit words. */
#include "bench.h"

#include <string.h>

void pair_level(struct pair *p)
{
    words_to_bytes(p->words, p->length, p->bytes);
    registers_to_row(&p->g, p->row);
}

const char *pair_difference(const struct pair *p)
{
    static uint8_t bytes[WORD * MOST], row[ROW];
    words_to_bytes(p->words, p->length, bytes);
    registers_to_row(&p->g, row);
    if (memcmp(row, p->row, ROW) != 0)
        return "the registers";
    if (memcmp(bytes, p->bytes, WORD * p->length) != 0)
        return "the core";
    return NULL;
}
