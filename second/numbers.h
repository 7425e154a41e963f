/* Arithmetic and relations, on signs and magnitudes; written from paper 01 alone. */
#ifndef SECOND_NUMBERS_H
#define SECOND_NUMBERS_H

#include "stack.h"

/* Two is "both full"; "Flags ignored ... An exponent not 0: 20". */
PART int take_two_numbers(struct machine *m)
{
    MUST(make_both_full(m));
    return ((m->g.A | m->g.B) & EXPONENT) == 0 ? SECOND_WENT_ON : SECOND_NOT_WHOLE;
}

/* "result in B, A empty" */
PART void give(struct machine *m, uint64_t word)
{
    m->g.B = word;
    empty_a(m);
}

/* "result flag off, zero gets sign off ... result past 39 bits: 20." */
PART int give_number(struct machine *m, uint64_t sign, uint64_t magnitude)
{
    if (magnitude > MAGNITUDE)
        return SECOND_NOT_WHOLE;
    give(m, magnitude == 0 ? 0 : sign | magnitude);
    return SECOND_WENT_ON;
}

/* "ADD 0101, SUB 0301 (B-A)": SUB turns A's sign and adds. */
PART int add(struct machine *m, uint64_t turn)
{
    MUST(take_two_numbers(m));
    uint64_t a = m->g.A & MAGNITUDE, a_sign = (m->g.A & SIGN) ^ turn;
    uint64_t b = m->g.B & MAGNITUDE, b_sign = m->g.B & SIGN;
    if (a_sign == b_sign)
        return give_number(m, b_sign, b + a);
    return b >= a ? give_number(m, b_sign, b - a) : give_number(m, a_sign, a - b);
}

/* "MUL 0401": the part of A above 20 bits shows an overflow before it can pass 64. */
PART int multiply(struct machine *m)
{
    MUST(take_two_numbers(m));
    uint64_t a = m->g.A & MAGNITUDE, b = m->g.B & MAGNITUDE;
    if ((a >> 20) * b >> 19 != 0)
        return SECOND_NOT_WHOLE;
    return give_number(m, (m->g.A ^ m->g.B) & SIGN, a * b);
}

/* "A zero in IDV, RDV: 21" */
PART int take_divisor(struct machine *m)
{
    MUST(take_two_numbers(m));
    return (m->g.A & MAGNITUDE) != 0 ? SECOND_WENT_ON : SECOND_ZERO_DIVISOR;
}

/* "IDV 3001 (toward zero)" */
PART int divide(struct machine *m)
{
    MUST(take_divisor(m));
    return give_number(m, (m->g.A ^ m->g.B) & SIGN,
                       (m->g.B & MAGNITUDE) / (m->g.A & MAGNITUDE));
}

/* "RDV 7001 (sign of B)" */
PART int remainder_divide(struct machine *m)
{
    MUST(take_divisor(m));
    return give_number(m, m->g.B & SIGN, (m->g.B & MAGNITUDE) % (m->g.A & MAGNITUDE));
}

/* A number's rank: both zeros share one, so that "-0 EQL 0: 1". */
PART uint64_t rank(uint64_t word)
{
    uint64_t magnitude = word & MAGNITUDE;
    return (word & SIGN) != 0 ? MAGNITUDE - magnitude : MAGNITUDE + magnitude;
}

enum relation { LESS = 1, EQUAL = 2, GREATER = 4 };

/* "Two, B against A, 1 or 0; flags and exponents as above." */
PART int relate(struct machine *m, unsigned wanted)
{
    MUST(take_two_numbers(m));
    uint64_t a = rank(m->g.A), b = rank(m->g.B);
    unsigned found = b < a ? LESS : b == a ? EQUAL : GREATER;
    give(m, (wanted & found) != 0);
    return SECOND_WENT_ON;
}

#endif
