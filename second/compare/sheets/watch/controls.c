/* Segments that would not pass, run all the same: the watch must see what each of them does. */
#include "controls.h"
#include "../../../codes.h"
#include "watch.h"

#include <stdio.h>
#include <string.h>

/* Code at 0, stack words 32 to 35, table at 64 with number cells 7 to 9 and an array of ten words at 200. */
enum { LENGTH = 240, S = 31, ROOM = 4, TABLE = 64, ARRAY = 20, FIRST = 200, SIZE = 10, CODE = 8 };

/* A code of 0 is filled up with NOP. */
static const struct {
    const char *name, *seen;
    unsigned code[CODE];
} cases[] = {
    {"a branch out of the code", "a fetch outside the code", {LITC(10), BFW}},
    {"a store in a closed cell", "a write outside the sheet", {LITC(5), LITC(40), STD}},
    {"a stack past d", "a write outside the sheet",
     {LITC(1), LITC(1), LITC(1), LITC(1), LITC(1), LITC(1), LITC(1), LITC(1)}},
    {"a store past the array", "a write outside the sheet",
     {LITC(5), LITC(SIZE - 1), LITC(1), DESC(ARRAY), INX, STD}},
    {"a descriptor stored as a number", "a number cell or a word of an array has its flag on",
     {LITC(5), MDS, LITC(8), STD}},
    {"an operator not built", "a stop that no passed segment has", {00051}},
    {"a mark in the stack", "a register that is not the sheet's", {MKS}},
};
enum { CASES = sizeof cases / sizeof *cases };

unsigned controls_all(void) { return CASES; }

static struct segment seg;

static void lay_out(const unsigned *code)
{
    memset(&seg, 0, sizeof seg);
    uint64_t *core = seg.st.core;
    for (unsigned i = 0; i < CODE; i++)
        core[i / 4] |= (uint64_t)(code[i] != 0 ? code[i] : NOP) << (36 - 12 * (i % 4));
    core[TABLE + ARRAY] = ON(0) | ON(2) | (uint64_t)SIZE << 30 | FIRST;
    seg.st.length = LENGTH;
    seg.st.g = (struct second_registers){.S = S, .R = 1};
    seg.record[0] = (struct record){1, 0, 0, CODE / 4};
    seg.record[1] = (struct record){2, 0, S, ROOM};
    seg.record[2] = (struct record){5, 0, 1, 64};
    seg.table = 64;
    seg.kind[7] = seg.kind[8] = seg.kind[9] = NUMBER_CELL;
    seg.kind[ARRAY] = ARRAY_CELL;
}

static bool says(const char *what, const char *seen) { return what != NULL && strcmp(what, seen) == 0; }

unsigned group_controls(void)
{
    unsigned failures = 0;
    for (unsigned n = 0; n < CASES; n++) {
        lay_out(cases[n].code);
        struct watched w = watch_segment(&seg, CODE + 1);
        if (says(w.ours, cases[n].seen) && says(w.second, cases[n].seen) && w.difference == NULL)
            continue;
        printf("compare: difference: control, %s: of our machine the watch says %s, of the second one %s\n",
               cases[n].name, w.ours != NULL ? w.ours : "nothing", w.second != NULL ? w.second : "nothing");
        failures++;
    }
    return failures;
}
