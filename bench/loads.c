/* The loads: loops that never stop, so that every run spends its budget. */
#include "bench.h"
#include "../second/codes.h"

#include <string.h>

/* The table is at 64R with R=1; the stack grows from S=31 below it. */
enum { TABLE = 64, SUM = 10, COUNT = 11, ARRAY = 12, OUTER = 13, INNER = 14, LAST = 15 };
enum { ARRAY_AT = 256, ARRAY_SIZE = 100, OUTER_AT = 8, INNER_AT = 12 };

#define ON(bit) (UINT64_C(1) << (47 - (bit)))

static void lay_code(struct pair *p, size_t at, const unsigned *code, size_t n)
{
    for (size_t i = 0; i < n; i++)
        p->words[at + i / 4] |= (uint64_t)code[i] << (36 - 12 * (i % 4));
}
#define LAY(p, at, code) lay_code(p, at, code, sizeof code / sizeof *code)

/* sum := sum + count; count := count - 1; again unless count is 0. */
static void lay_arithmetic(struct pair *p)
{
    static const unsigned code[] = {
        OPDC(SUM), OPDC(COUNT), ADD, LITC(SUM),
        STD, OPDC(COUNT), LITC(1), SUB,
        LITC(COUNT), SND, LITC(0), EQL,
        LITC(14), BBC, LITC(16), BBW,
    };
    LAY(p, 0, code);
    p->words[TABLE + COUNT] = 100000;
}

/* sum := sum + array[i]; array[i] := array[i] + 1; i := i - 1, and from the top again below 0. */
static void lay_array(struct pair *p)
{
    static const unsigned code[] = {
        OPDC(COUNT), OPDC(ARRAY), OPDC(SUM), ADD,
        LITC(SUM), STD, OPDC(COUNT), OPDC(ARRAY),
        LITC(1), ADD, OPDC(COUNT), DESC(ARRAY),
        STD, OPDC(COUNT), LITC(1), SUB,
        LITC(COUNT), SND, LITC(0), LSS,
        LITC(22), BBC, LITC(ARRAY_SIZE - 1), LITC(COUNT),
        STD, LITC(27), BBW, NOP,
    };
    LAY(p, 0, code);
    p->words[TABLE + COUNT] = ARRAY_SIZE - 1;
    p->words[TABLE + ARRAY] = ON(0) | ON(2) | (uint64_t)ARRAY_SIZE << 30 | ARRAY_AT;
    for (uint64_t i = 0; i < ARRAY_SIZE; i++)
        p->words[ARRAY_AT + i] = i;
}

/* A call with a parameter, and in it a second call that hands the parameter on. */
static void lay_calls(struct pair *p)
{
    /* F - 1, where the parameter stands below the return control word. */
    enum { PARAMETER = 01601 };
    static const unsigned code[] = {
        MKS, OPDC(COUNT), OPDC(OUTER), OPDC(COUNT),
        LITC(1), SUB, LITC(COUNT), SND,
        LITC(0), EQL, LITC(12), BBC,
        LITC(1000), LITC(COUNT), STD, LITC(17),
        BBW,
    };
    static const unsigned outer[] = {
        OPDC(PARAMETER), OPDC(SUM), ADD, LITC(SUM),
        STD, MKS, OPDC(PARAMETER), OPDC(INNER),
        XIT,
    };
    static const unsigned inner[] = {OPDC(PARAMETER), LITC(LAST), STD, XIT};
    const uint64_t program = ON(0) | ON(1) | ON(2) | ON(3) | ON(5);
    LAY(p, 0, code);
    LAY(p, OUTER_AT, outer);
    LAY(p, INNER_AT, inner);
    p->words[TABLE + COUNT] = 1000;
    p->words[TABLE + OUTER] = program | OUTER_AT;
    p->words[TABLE + INNER] = program | INNER_AT;
}

/* The syllables that none of the others has, which the run leaves to its full step. */
static void lay_rare(struct pair *p)
{
    static const unsigned code[] = {
        LITC(3), DUP, XCH, LND,
        LITC(5), LOR, CHS, TOP,
        DEL, DEL, LITC(SUM), LOD,
        DEL, LITC(15), BBW, NOP,
    };
    LAY(p, 0, code);
    p->words[TABLE + SUM] = 7;
}

const struct load loads[LOADS] = {
    {"arithmetic loop", lay_arithmetic},
    {"array sums and stores", lay_array},
    {"subroutine calls", lay_calls},
    {"rarer syllables", lay_rare},
};

void load_lay(const struct load *load, size_t length, struct pair *p)
{
    memset(p, 0, sizeof *p);
    p->length = length;
    p->g.R = 1;
    p->g.S = 31;
    load->lay(p);
    pair_level(p);
}
