/* Stored cases, run on both machines: paper 01's own, the manual's worked examples, and a few derived from the two. */
#include "cases.h"
#include "../../codes.h"
#include "../machine/both.h"

#include <stdio.h>
#include <string.h>

#define CODE(a, b, c, d) ((uint64_t)(a) << 36 | (uint64_t)(b) << 24 | (uint64_t)(c) << 12 | (uint64_t)(d))

/* The word at an address; {0, 0} stands for none. */
struct cell {
    size_t at;
    uint64_t word;
};

/* Core is 0 but for `in`. The registers at the end are all compared, of the core the words `out`. */
struct stored {
    const char *name;
    size_t length;
    struct second_registers start;
    struct cell in[8];
    uint64_t budget, stop, completed;
    struct second_registers end;
    struct cell out[6];
};

static const struct stored cases[] = {
    {"01: runone's example", 4096, {.R = 1, .S = 31},
     {{0, 0x01401C041209}}, 1000, 17, 4, {.C = 1, .R = 1, .S = 31}, {{73, 014}}},

    {"manual, operand calls and ADD: X + Y on top", 200, {.R = 1, .S = 31},
     {{0, 00152022601010055}, {64 + 032, 20}, {64 + 045, 22}},
     3, 0, 3, {.L = 3, .R = 1, .S = 31, .b_full = 1, .B = 42}, {{0}}},
    {"manual, Z at 10400: the descriptor call", 4608, {.R = 0103, .S = 05000},
     {{0, 00403015202260101}, {1, 01025042100550055}, {010332, 20}, {010345, 22}},
     1, 0, 1, {.L = 1, .R = 0103, .S = 05000, .a_full = 1, .A = 05000000000010400}, {{0}}},
    {"manual, Z at 10400: the sum is stored", 4608, {.R = 0103, .S = 05000},
     {{0, 00403015202260101}, {1, 01025042100550055}, {010332, 20}, {010345, 22}},
     6, 0, 6, {.C = 1, .L = 2, .R = 0103, .S = 05000}, {{010400, 42}}},
    {"manual, Z := Y + 2(W + V), stack empty at the end", 200, {.R = 1, .S = 31},
     {{0, 00123012600100132}, {1, 00136010104010101}, {2, 01025042100550055},
      {64 + 21, 5}, {64 + 22, 6}, {64 + 23, 7}},
     10, 0, 10, {.C = 2, .L = 2, .R = 1, .S = 31}, {{64 + 20, 31}}},
    {"manual, B C + 7 x A =", 200, {.R = 1, .S = 31},
     {{0, CODE(OPDC(21), OPDC(22), ADD, LITC(7))}, {1, CODE(MUL, LITC(20), STD, NOP)},
      {64 + 21, 2}, {64 + 22, 4}},
     7, 0, 7, {.C = 1, .L = 3, .R = 1, .S = 31}, {{64 + 20, 42}}},
    {"manual, both full from empty: S down twice", 200, {.R = 1, .S = 31},
     {{0, CODE(XCH, NOP, NOP, NOP)}, {31, 1}, {30, 2}},
     1, 0, 1, {.L = 1, .R = 1, .S = 29, .a_full = 1, .A = 2, .b_full = 1, .B = 1}, {{0}}},
    {"manual, DEL with A and B empty", 200, {.R = 1, .S = 31},
     {{0, CODE(DEL, NOP, NOP, NOP)}, {31, 1}}, 1, 0, 1, {.L = 1, .R = 1, .S = 30}, {{31, 1}}},
    {"manual, DEL with B full", 200, {.R = 1, .S = 31, .b_full = 1, .B = 5},
     {{0, CODE(DEL, NOP, NOP, NOP)}}, 1, 0, 1, {.L = 1, .R = 1, .S = 31}, {{0}}},
    {"manual, DEL with A full", 200, {.R = 1, .S = 31, .a_full = 1, .A = 5},
     {{0, CODE(DEL, NOP, NOP, NOP)}}, 1, 0, 1, {.L = 1, .R = 1, .S = 31}, {{0}}},
    {"manual, DEL with A and B full", 200, {.R = 1, .S = 31, .a_full = 1, .A = 5, .b_full = 1, .B = 6},
     {{0, CODE(DEL, NOP, NOP, NOP)}}, 1, 0, 1, {.L = 1, .R = 1, .S = 31, .b_full = 1, .B = 6}, {{0}}},
    {"manual, largest index of the table, SALF off", 1200, {.C = 3, .R = 1, .S = 31},
     {{3, CODE(OPDC(01777), 0, 0, 0)}, {64 + 1023, 7}},
     1, 0, 1, {.C = 3, .L = 1, .R = 1, .S = 31, .a_full = 1, .A = 7}, {{0}}},
    {"manual, largest index of the table, SALF on", 1200, {.C = 3, .R = 1, .S = 31, .F = 200, .SALF = 1},
     {{3, CODE(OPDC(0777), 0, 0, 0)}, {64 + 511, 7}},
     1, 0, 1, {.C = 3, .L = 1, .R = 1, .S = 31, .F = 200, .SALF = 1, .a_full = 1, .A = 7}, {{0}}},
    {"manual, largest index above F", 1200, {.C = 3, .R = 1, .S = 31, .F = 200, .SALF = 1},
     {{3, CODE(OPDC(01377), 0, 0, 0)}, {200 + 255, 7}},
     1, 0, 1, {.C = 3, .L = 1, .R = 1, .S = 31, .F = 200, .SALF = 1, .a_full = 1, .A = 7}, {{0}}},
    {"manual, largest index above C", 1200, {.C = 3, .L = 3, .R = 1, .S = 31, .F = 200, .SALF = 1},
     {{3, CODE(0, 0, 0, OPDC(01577))}, {3 + 127, 7}},
     1, 0, 1, {.C = 4, .R = 1, .S = 31, .F = 200, .SALF = 1, .a_full = 1, .A = 7}, {{0}}},
    {"manual, largest index below F", 1200, {.C = 3, .R = 1, .S = 31, .F = 200, .SALF = 1},
     {{3, CODE(OPDC(01777), 0, 0, 0)}, {200 - 127, 7}},
     1, 0, 1, {.C = 3, .L = 1, .R = 1, .S = 31, .F = 200, .SALF = 1, .a_full = 1, .A = 7}, {{0}}},
    {"manual, 4006 is the word above F", 1200, {.C = 3, .R = 1, .S = 31, .F = 200, .SALF = 1},
     {{3, CODE(04006, 0, 0, 0)}, {201, 7}},
     1, 0, 1, {.C = 3, .L = 1, .R = 1, .S = 31, .F = 200, .SALF = 1, .a_full = 1, .A = 7}, {{0}}},
    {"manual, 7006 is the word below F", 1200, {.C = 3, .R = 1, .S = 31, .F = 200, .SALF = 1},
     {{3, CODE(07006, 0, 0, 0)}, {199, 7}},
     1, 0, 1, {.C = 3, .L = 1, .R = 1, .S = 31, .F = 200, .SALF = 1, .a_full = 1, .A = 7}, {{0}}},
    {"manual, 6026 is five words above C", 1200, {.C = 3, .R = 1, .S = 31, .F = 200, .SALF = 1},
     {{3, CODE(06026, 0, 0, 0)}, {8, 7}},
     1, 0, 1, {.C = 3, .L = 1, .R = 1, .S = 31, .F = 200, .SALF = 1, .a_full = 1, .A = 7}, {{0}}},
    {"manual, a reverse count of 1 is a closed loop", 200, {.R = 1, .S = 31},
     {{0, CODE(LITC(1), BBW, NOP, NOP)}, {31, 1}},
     3, 0, 3, {.L = 1, .R = 1, .S = 30}, {{0}}},
    {"manual, the closed loop ends where the stack does", 200, {.R = 1, .S = 0},
     {{0, CODE(LITC(1), BBW, NOP, NOP)}},
     9, 11, 2, {.L = 1, .R = 1, .S = 0}, {{0}}},

    {"derived, a call with one parameter: entered", 600, {.R = 1, .S = 31},
     {{0, CODE(MKS, LITC(5), OPDC(20), NOP)}, {512, CODE(07006, LITC(30), STD, XIT)},
      {64 + 20, 07500000000001000}},
     3, 0, 3, {.C = 512, .R = 1, .S = 34, .F = 34, .SALF = 1},
     {{32, 06000100000000000}, {33, 5}, {34, 06003000004000000}}},
    {"derived, a call with one parameter: left", 600, {.R = 1, .S = 31},
     {{0, CODE(MKS, LITC(5), OPDC(20), NOP)}, {512, CODE(07006, LITC(30), STD, XIT)},
      {64 + 20, 07500000000001000}},
     7, 0, 7, {.L = 3, .R = 1, .S = 31}, {{64 + 30, 5}}},
    {"derived, an entry with a word in A", 600, {.L = 1, .R = 1, .S = 31, .a_full = 1, .A = 9},
     {{0, CODE(NOP, OPDC(20), NOP, NOP)},
      {64 + 20, ON(0) | ON(1) | ON(2) | ON(3) | UINT64_C(77) << 15 | 512}},
     1, 0, 1, {.C = 512, .R = 1, .S = 34, .F = 77, .SALF = 1},
     {{32, 011}, {33, 06000100000000000}, {34, 06002000004100000}}},
    {"derived, a word pushed is seen by the read after it", 200,
     {.R = 1, .S = 127, .a_full = 1, .A = 7, .b_full = 1, .B = 99},
     {{0, CODE(OPDC(64), NOP, NOP, NOP)}},
     1, 0, 1, {.L = 1, .R = 1, .S = 128, .a_full = 1, .A = 99, .b_full = 1, .B = 7}, {{128, 99}}},
};

enum { CASES = sizeof cases / sizeof *cases, CELLS_IN = 8, CELLS_OUT = 6 };

unsigned stored_all(void) { return CASES; }

static bool none(struct cell cell) { return cell.at == 0 && cell.word == 0; }

static const char *wrong(const struct stored *c, const struct state *st, struct verdict v)
{
    if (v.difference != NULL)
        return v.difference;
    if (v.number != c->stop || v.completed != c->completed)
        return "the number or the count is not the stored one";
    if (memcmp(&st->g, &c->end, sizeof st->g) != 0)
        return "a register is not the stored one";
    for (unsigned i = 0; i < CELLS_OUT; i++)
        if (!none(c->out[i]) && st->core[c->out[i].at] != c->out[i].word)
            return "a word is not the stored one";
    return NULL;
}

unsigned group_stored(void)
{
    static struct state st;
    unsigned failures = 0;
    for (unsigned n = 0; n < CASES; n++) {
        const struct stored *c = &cases[n];
        memset(&st, 0, sizeof st);
        st.length = c->length;
        st.g = c->start;
        for (unsigned i = 0; i < CELLS_IN; i++)
            if (!none(c->in[i]))
                st.core[c->in[i].at] = c->in[i].word;
        const char *what = wrong(c, &st, both_run(&st, c->budget));
        if (what == NULL)
            continue;
        printf("compare: difference: stored case, %s: %s\n", c->name, what);
        failures++;
    }
    return failures;
}
