/* Control words: MKS, entry and XIT; written from paper 01 alone. */
#ifndef SECOND_MARKS_H
#define SECOND_MARKS_H

#include "stack.h"

/* "MSCW: 6-14 R, 16 MSFF, 17 SALF, 18-32 F ... Fields not named are written 0." */
PART uint64_t mscw(const struct second_registers *g)
{
    return FLAG | SIGN | put(g->R, 14) | put(g->MSFF, 16) | put(g->SALF, 17) | put(g->F, 32);
}

/* "RCW: 2 descriptor call, 10-11 L, 18-32 F, 33-47 C." */
PART uint64_t rcw(const struct second_registers *g, bool descriptor_call)
{
    return FLAG | SIGN | (descriptor_call ? RETURN_DESC : 0) | put(g->L, 11) |
           put(g->F, 32) | put(g->C, 47);
}

/* "MKS 0441: push B, then A, if full; push MSCW; F:=S; if SALF on and MSFF off, write
   that MSCW also at 64R+7 (11); MSFF on." */
PART int mark_stack(struct machine *m)
{
    MUST(push_b_if_full(m));
    MUST(push_a_if_full(m));
    uint64_t mark = mscw(&m->g);
    MUST(push(m, mark));
    m->g.F = m->g.S;
    if (m->g.SALF && !m->g.MSFF)
        MUST(write_core(m, table_cell(m, 7), mark));
    m->g.MSFF = 1;
    return SECOND_WENT_ON;
}

/* "otherwise enter: ..."; A holds the program descriptor, B is empty once pushed. */
PART int enter(struct machine *m, bool descriptor_call)
{
    uint64_t program = m->g.A;
    bool argument = (program & ARGUMENT) != 0;
    MUST(push_b_if_full(m));
    if (!argument) {
        MUST(push(m, mscw(&m->g)));
        m->g.F = m->g.S;
    }
    MUST(push(m, rcw(&m->g, descriptor_call)));
    m->g.F = argument ? m->g.S : f_field(program);
    m->g.C = address_of(program);
    m->g.L = 0;
    empty_a(m);
    m->g.SALF = 1;
    m->g.MSFF = 0;
    return SECOND_WENT_ON;
}

/* "Outside core 11, flag off 14." */
PART int read_control(const struct machine *m, uint64_t *word)
{
    MUST(read_core(m, m->g.F, word));
    return flagged(*word) ? SECOND_WENT_ON : SECOND_FLAG;
}

/* "read at F, follow F fields while bit 16 is on (11 outside core, or bit 16 still on
   at the 32,768th read), write the last word at 64R+7." */
PART int restore_mark(struct machine *m)
{
    uint64_t at = m->g.F, word;
    MUST(read_core(m, at, &word));
    for (uint64_t reads = 1; (word & MARK_MSFF) != 0; reads++) {
        if (reads == CORE_LIMIT)
            return SECOND_ADDRESS;
        at = f_field(word);
        MUST(read_core(m, at, &word));
    }
    return write_core(m, table_cell(m, 7), word);
}

/* "XIT 0435: nothing if SALF is off." The address tests of a word precede its flag. */
PART int exit_procedure(struct machine *m)
{
    if (!m->g.SALF)
        return SECOND_WENT_ON;
    empty_a(m);
    empty_b(m);
    uint64_t word;
    MUST(read_control(m, &word));
    m->g.C = address_of(word);
    m->g.L = field(word, 10, 11);
    m->g.F = f_field(word);
    if (m->g.F == 0)
        return SECOND_ADDRESS;
    MUST(read_control(m, &word));
    m->g.S = m->g.F - 1;
    m->g.R = field(word, 6, 14);
    m->g.MSFF = field(word, 16, 16);
    m->g.SALF = field(word, 17, 17);
    m->g.F = f_field(word);
    return m->g.MSFF && m->g.SALF ? restore_mark(m) : SECOND_WENT_ON;
}

#endif
