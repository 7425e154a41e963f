/* Push, pop and the adjustments, written from paper 01 alone. */
#ifndef SECOND_STACK_H
#define SECOND_STACK_H

#include "machine.h"

/* "empty holds 0" */
PART void empty_a(struct machine *m)
{
    m->g.A = 0;
    m->g.a_full = 0;
}

PART void empty_b(struct machine *m)
{
    m->g.B = 0;
    m->g.b_full = 0;
}

PART void fill_a(struct machine *m, uint64_t word)
{
    m->g.A = word;
    m->g.a_full = 1;
}

PART void fill_b(struct machine *m, uint64_t word)
{
    m->g.B = word;
    m->g.b_full = 1;
}

/* "Stop 12 if floor((S+1)/64)=R, else 11 if S+1 is not below the core length." */
PART int push(struct machine *m, uint64_t word)
{
    uint64_t to = m->g.S + 1;
    if (to / 64 == m->g.R)
        return SECOND_OVERFLOW;
    MUST(write_core(m, to, word));
    m->g.S = to;
    return SECOND_WENT_ON;
}

/* "11 if S=0 or S is not below the core length; else read at S, then S-1." */
PART int pop(struct machine *m, uint64_t *word)
{
    if (m->g.S == 0)
        return SECOND_ADDRESS;
    MUST(read_core(m, m->g.S, word));
    m->g.S--;
    return SECOND_WENT_ON;
}

/* "a register pushed ... becomes empty" */
PART int push_b_if_full(struct machine *m)
{
    if (m->g.b_full) {
        MUST(push(m, m->g.B));
        empty_b(m);
    }
    return SECOND_WENT_ON;
}

PART int push_a_if_full(struct machine *m)
{
    if (m->g.a_full) {
        MUST(push(m, m->g.A));
        empty_a(m);
    }
    return SECOND_WENT_ON;
}

/* "A empty: if A is full, push B if full, move A to B." */
PART int make_a_empty(struct machine *m)
{
    if (m->g.a_full) {
        MUST(push_b_if_full(m));
        fill_b(m, m->g.A);
        empty_a(m);
    }
    return SECOND_WENT_ON;
}

/* "B full: if empty, pop." */
PART int make_b_full(struct machine *m)
{
    if (!m->g.b_full) {
        uint64_t word;
        MUST(pop(m, &word));
        fill_b(m, word);
    }
    return SECOND_WENT_ON;
}

/* "A full: if empty, take B if full, else pop." */
PART int make_a_full(struct machine *m)
{
    if (m->g.a_full)
        return SECOND_WENT_ON;
    if (m->g.b_full) {
        fill_a(m, m->g.B);
        empty_b(m);
        return SECOND_WENT_ON;
    }
    uint64_t word;
    MUST(pop(m, &word));
    fill_a(m, word);
    return SECOND_WENT_ON;
}

/* "Both full: make A full, then pop B if empty." */
PART int make_both_full(struct machine *m)
{
    MUST(make_a_full(m));
    return make_b_full(m);
}

#endif
