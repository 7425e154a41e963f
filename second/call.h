/* Operand call and descriptor call, written from paper 01 alone. */
#ifndef SECOND_CALL_H
#define SECOND_CALL_H

#include "address.h"
#include "marks.h"

/* "take B as index (exponent not 0: 20; below 0 or at least size: 15; -0 is 0; flag
   ignored), empty B, add the index to the address ... set size 0." */
PART int index_a(struct machine *m)
{
    MUST(make_b_full(m));
    uint64_t index = m->g.B & MAGNITUDE;
    if ((m->g.B & EXPONENT) != 0)
        return SECOND_NOT_WHOLE;
    if ((m->g.B & SIGN) != 0 && index != 0)
        return SECOND_INDEX;
    if (index >= size_of(m->g.A))
        return SECOND_INDEX;
    empty_b(m);
    m->g.A = add_to_address(m->g.A, index) & ~put(01777, 17);
    return SECOND_WENT_ON;
}

/* "Data descriptor of size over 0 ... Size 0: the same without index." */
PART int call_data(struct machine *m, bool descriptor_call)
{
    if ((m->g.A & PRESENCE) == 0)
        return SECOND_PRESENCE;
    if (size_of(m->g.A) != 0)
        MUST(index_a(m));
    if (descriptor_call)
        return SECOND_WENT_ON;
    /* "OPDC then reads that address (11 if outside core; flag on: 14) into A" */
    uint64_t word;
    MUST(read_core(m, address_of(m->g.A), &word));
    if (flagged(word))
        return SECOND_FLAG;
    m->g.A = word;
    return SECOND_WENT_ON;
}

/* "Program descriptor: mode on, 19; argument on with MSFF off, left in A; otherwise
   enter" */
PART int call_program(struct machine *m, bool descriptor_call)
{
    if ((m->g.A & PRESENCE) == 0)
        return SECOND_PRESENCE;
    if ((m->g.A & MODE) != 0)
        return SECOND_NOT_BUILT;
    if ((m->g.A & ARGUMENT) != 0 && !m->g.MSFF)
        return SECOND_WENT_ON;
    return enter(m, descriptor_call);
}

/* "OPDC, DESC: A empty, form the address m from k, put the word at m in A, then call
   it." */
PART int call(struct machine *m, uint64_t k, bool descriptor_call)
{
    uint64_t at, word;
    MUST(make_a_empty(m));
    MUST(address_of_k(m, k, &at));
    MUST(read_core(m, at, &word));
    fill_a(m, word);
    if (is_data(word))
        return call_data(m, descriptor_call);
    if (is_program(word))
        return call_program(m, descriptor_call);
    /* "DESC makes bits 0 and 2 on, address m, all else 0." */
    if (descriptor_call)
        m->g.A = FLAG | PRESENCE | at;
    return SECOND_WENT_ON;
}

#endif
