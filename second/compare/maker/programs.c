/* Programs by chance: parts of code that mostly find what they need. */
#include "programs.h"
#include "../../codes.h"
#include "../machine/operations.h"
#include "words.h"

enum { CODE_WORDS = 24, NUMBER_CELLS = 20, ARRAY_CELL = 30, PROGRAM_CELL = 31, CELLS = 34 };

static unsigned code_made;
static void make(struct state *st, unsigned syllable)
{
    if (code_made < 4 * CODE_WORDS)
        put_syllable(st, code_made / 4, code_made % 4, syllable);
    code_made++;
}

static void make_part(struct state *st)
{
    static const unsigned branches[] = {BFW, BBW, BFC, BBC}, stores[] = {STD, SND, LOD};
    uint64_t cell = NUMBER_CELLS + chance(ARRAY_CELL - NUMBER_CELLS);
    switch (chance(14)) {
    case 0: case 1: case 2: make(st, LITC(chance(10))); break;
    case 3: case 4: make(st, OPDC(cell)); break;
    case 5: make(st, LITC(chance(8))); make(st, OPDC(ARRAY_CELL)); break;
    case 6: make(st, LITC(chance(8))); make(st, DESC(ARRAY_CELL)); break;
    case 7: make(st, LITC(cell)); make(st, stores[chance(3)]); break;
    case 8: make(st, LITC(chance(24))); make(st, branches[chance(4)]); break;
    case 9:
        make(st, MKS);
        make(st, LITC(chance(8)));
        cell = PROGRAM_CELL + chance(3);
        make(st, one_in(2) ? OPDC(cell) : DESC(cell));
        break;
    case 10: make(st, one_in(3) ? XIT : XCH); break;
    case 11: make(st, operator_code(below(OPERATORS))); break;
    default: make(st, operator_code(below(15))); break;
    }
}

void chance_program(struct state *st)
{
    st->length = 64 + CELLS + (size_t)chance(120);
    for (size_t i = 0; i < st->length; i++)
        st->core[i] = chance(4) ? chance_operand() : chance_word(st);
    st->g = (struct second_registers){
        .R = 1, .S = one_in(2) ? CODE_WORDS + chance(30) : 64 + CELLS - 1 + chance(40),
        .F = one_in(3) ? chance_address(st) : 0, .SALF = one_in(3), .MSFF = one_in(4),
        .C = chance(3), .L = chance(4)};
    for (uint64_t i = NUMBER_CELLS; i < ARRAY_CELL; i++)
        st->core[64 + i] = one_in(8) ? chance_word(st) : chance_operand();
    st->core[64 + ARRAY_CELL] = ON(0) | ON(2) | (1 + chance(8)) << 30 | (64 + NUMBER_CELLS);
    for (uint64_t i = PROGRAM_CELL; i < CELLS; i++)
        st->core[64 + i] = one_in(6) ? chance_program_descriptor(st)
                                     : ON(0) | ON(1) | ON(2) | ON(3) | (one_in(2) ? ON(5) : 0) |
                                           chance_address(st) << 15 | chance(CODE_WORDS);
    code_made = 0;
    while (code_made < 4 * CODE_WORDS)
        make_part(st);
}
