/* Expressions by chance: each leaves one literal or number. */
#include "expressions.h"
#include "../../../codes.h"
#include "../../maker/chance.h"
#include "cells.h"
#include "code.h"

unsigned stored_cell(void)
{
    const struct cells *numbers = &seg->numbers;
    return numbers->cell[seg->counters + chance(numbers->count - seg->counters)];
}

static void make_literal(void) { put(LITC(one_in(4) ? chance(1024) : chance(12)), 1); }

void make_smaller(void)
{
    if (code->wild && !one_in(4))
        return;
    put(LITC(1 + chance(1023)), 1);
    put(RDV, -1);
}

void make_index(unsigned array, unsigned deep)
{
    unsigned size = seg->size[array];
    if (code->wild && one_in(3)) {
        if (one_in(2))
            put(LITC(size - 1 + chance(2)), 1);
        else
            make_word(deep);
        return;
    }
    if (deep == 0 || one_in(3)) {
        put(LITC(one_in(3) ? size - 1 : chance(size)), 1);
        return;
    }
    make_word(deep - 1);
    put(LITC(size), 1);
    put(RDV, -1);
    put(SSP, 0);
}

void make_two_operator(void)
{
    static const unsigned tame[] = {ADD, SUB, GTR, GEQ, EQL, LEQ, LSS, NEQ, LND, LOR};
    static const unsigned wild[] = {MUL, IDV, RDV, LQV};
    if (code->wild && one_in(3))
        put(wild[chance(4)], -1);
    else
        put(tame[chance(10)], -1);
}

/* Operators that in tame code want a literal beside them. */
static void make_with_literal(void)
{
    switch (chance(4)) {
    case 0: put(LITC(chance(9)), 1); put(MUL, -1); break;
    case 1: put(LITC(1 + chance(9)), 1); put(IDV, -1); break;
    case 2: put(LITC(chance(1024)), 1); put(LQV, -1); put(LITC(chance(1024)), 1); put(LND, -1); break;
    default: put(LNG, 0); put(LITC(chance(1024)), 1); put(LND, -1); break;
    }
}

static void make_one_operator(void)
{
    static const unsigned operators[] = {MOP, SSP, SSN, CHS, LNG};
    put(operators[chance(code->wild ? 5 : 4)], 0);
}

static void make_array_word(unsigned deep)
{
    unsigned array = any_of(&seg->arrays);
    make_index(array, deep);
    if (one_in(3)) {
        put(DESC(array), 0);
        put(LOD, 0);
    } else {
        put(OPDC(array), 0);
    }
}

/* A place is carried beside a word. */
static void make_carried_place(unsigned deep)
{
    put(DESC(any_of(&seg->numbers)), 1);
    make_word(deep);
    put(XCH, 0);
    put(LOD, 0);
    make_two_operator();
}

void make_word(unsigned deep)
{
    switch (chance(deep == 0 ? 4 : 16)) {
    case 0: make_literal(); break;
    case 1: case 2: put(OPDC(any_of(&seg->numbers)), 1); break;
    case 3:
        put(one_in(2) ? DESC(any_of(&seg->numbers)) : LITC(any_of(&seg->numbers)), 1);
        put(LOD, 0);
        break;
    case 4: case 5:
        if (seg->arrays.count != 0)
            make_array_word(deep - 1);
        else
            make_literal();
        break;
    case 6: make_word(deep - 1); make_one_operator(); break;
    case 7: make_word(deep - 1); put(LITC(stored_cell()), 1); put(SND, -1); break;
    case 8: make_word(deep - 1); put(one_in(2) ? TOP : DUP, 1); make_two_operator(); break;
    case 9: make_word(deep - 1); put(TOP, 1); put(XCH, 0); put(DEL, -1); break;
    case 10: make_carried_place(deep - 1); break;
    case 11: make_word(deep - 1); make_with_literal(); break;
    case 12: /* a literal that SND keeps is still a literal */
        put(LITC(any_of(&seg->numbers)), 1);
        put(LITC(stored_cell()), 1);
        put(SND, -1);
        put(LOD, 0);
        break;
    default:
        make_word(deep - 1);
        make_word(deep - 1);
        if (one_in(4))
            put(XCH, 0);
        make_two_operator();
        break;
    }
}
