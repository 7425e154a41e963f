/* Logic, single words, exchange, storing, branches, COM; written from paper 01 alone. */
#ifndef SECOND_OPERATORS_H
#define SECOND_OPERATORS_H

#include "address.h"
#include "numbers.h"

/* "LND 0415, LOR 0215, LQV 1015: two, bits 1-47, flag of B." */
PART void give_logic(struct machine *m, uint64_t bits)
{
    give(m, (m->g.B & FLAG) | (bits & (FLAG - 1)));
}

PART int logic_and(struct machine *m)
{
    MUST(make_both_full(m));
    give_logic(m, m->g.A & m->g.B);
    return SECOND_WENT_ON;
}

PART int logic_or(struct machine *m)
{
    MUST(make_both_full(m));
    give_logic(m, m->g.A | m->g.B);
    return SECOND_WENT_ON;
}

PART int logic_equivalence(struct machine *m)
{
    MUST(make_both_full(m));
    give_logic(m, ~(m->g.A ^ m->g.B));
    return SECOND_WENT_ON;
}

/* One is "A full". The bits `keep` stay, then the bits `turn` are turned over. */
PART int change_a(struct machine *m, uint64_t keep, uint64_t turn)
{
    MUST(make_a_full(m));
    m->g.A = (m->g.A & keep) ^ turn;
    return SECOND_WENT_ON;
}

/* "TOP 2031: A empty, B full, A:=1 if B's flag is off, else 0." */
PART int test_operand(struct machine *m)
{
    MUST(make_a_empty(m));
    MUST(make_b_full(m));
    fill_a(m, !flagged(m->g.B));
    return SECOND_WENT_ON;
}

/* "XCH 1025: both full, exchanged." */
PART int exchange(struct machine *m)
{
    MUST(make_both_full(m));
    uint64_t a = m->g.A;
    m->g.A = m->g.B;
    m->g.B = a;
    return SECOND_WENT_ON;
}

/* "DUP 2025: A full; if B is full push it; B:=A." */
PART int duplicate(struct machine *m)
{
    MUST(make_a_full(m));
    MUST(push_b_if_full(m));
    fill_b(m, m->g.A);
    return SECOND_WENT_ON;
}

/* "DEL 0065: A full, emptied." */
PART int delete(struct machine *m)
{
    MUST(make_a_full(m));
    empty_a(m);
    return SECOND_WENT_ON;
}

/* "LOD 2021: one; A replaced by the word at A's place." */
PART int load(struct machine *m)
{
    uint64_t place;
    MUST(make_a_full(m));
    MUST(place_of_a(m, &place));
    return read_core(m, place, &m->g.A);
}

/* "SND 1021: both full, B stored at A's place, A emptied" */
PART int store(struct machine *m)
{
    uint64_t place;
    MUST(make_both_full(m));
    MUST(place_of_a(m, &place));
    MUST(write_core(m, place, m->g.B));
    empty_a(m);
    return SECOND_WENT_ON;
}

/* "STD empties B too." */
PART int store_and_empty(struct machine *m)
{
    MUST(store(m));
    empty_b(m);
    return SECOND_WENT_ON;
}

/* "INX adds the low 15 bits of B to A's address, modulo 32,768; B emptied." */
PART int index_address(struct machine *m)
{
    MUST(make_both_full(m));
    m->g.A = add_to_address(m->g.A, m->g.B);
    empty_b(m);
    return SECOND_WENT_ON;
}

/* "low 12 bits of A are syllables forward or back from the next one ... a target before
   syllable 0 or after 131,071: 11." C and L are already those of the next one. */
PART int jump(struct machine *m, bool forward)
{
    uint64_t a = m->g.A, next = 4 * m->g.C + m->g.L, by = a & 07777;
    if (flagged(a)) {
        /* "Flag on: 13 if bit 2 off, else C:=address, L:=0." */
        if ((a & PRESENCE) == 0)
            return SECOND_PRESENCE;
        next = 4 * address_of(a);
    } else if (forward) {
        next += by;
        if (next >= SYLLABLE_LIMIT)
            return SECOND_ADDRESS;
    } else {
        if (next < by)
            return SECOND_ADDRESS;
        next -= by;
    }
    m->g.C = next / 4;
    m->g.L = next % 4;
    return SECOND_WENT_ON;
}

/* "BFW 4231, BBW 4131: one" */
PART int branch(struct machine *m, bool forward)
{
    MUST(make_a_full(m));
    MUST(jump(m, forward));
    empty_a(m);
    return SECOND_WENT_ON;
}

/* "BFC 0231, BBC 0131: both full, branch only if bit 47 of B is off ... An untaken
   branch doesn't look at A." */
PART int branch_conditional(struct machine *m, bool forward)
{
    MUST(make_both_full(m));
    if ((m->g.B & BIT(47)) == 0)
        MUST(jump(m, forward));
    empty_a(m);
    empty_b(m);
    return SECOND_WENT_ON;
}

/* "COM 1011: A full, store it at 64R+9 (11), empty A, stop 17." */
PART int communicate(struct machine *m)
{
    MUST(make_a_full(m));
    MUST(write_core(m, table_cell(m, 9), m->g.A));
    empty_a(m);
    return SECOND_COMMUNICATE;
}

#endif
