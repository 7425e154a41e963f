/* One syllable: fetch, advance, obey, undo; written from paper 01 alone. */
#ifndef SECOND_SYLLABLE_H
#define SECOND_SYLLABLE_H

#include "call.h"
#include "operators.h"
#include "table.h"

/* "The step reads at C, L, then advances; 32767 with L=3 advances to 0, 0." */
PART int fetch(struct machine *m, uint64_t *syllable)
{
    uint64_t word;
    MUST(read_core(m, m->g.C, &word));
    if (m->watch != NULL && m->watch->fetch != NULL)
        m->watch->fetch(m->watch->watcher, m->g.C);
    m->present = m->g.C;
    *syllable = word >> (36 - 12 * m->g.L) & 07777;
    uint64_t next = (4 * m->g.C + m->g.L + 1) % SYLLABLE_LIMIT;
    m->g.C = next / 4;
    m->g.L = next % 4;
    return SECOND_WENT_ON;
}

/* "LITC: A empty, A:=k." */
PART int literal(struct machine *m, uint64_t k)
{
    MUST(make_a_empty(m));
    fill_a(m, k);
    return SECOND_WENT_ON;
}

PART int obey(struct machine *m, uint64_t syllable)
{
    unsigned number = second_table[syllable];
    switch (number) {
    /* "the first ten bits are its number k" */
    case LITC: return literal(m, syllable >> 2);
    case OPDC: return call(m, syllable >> 2, false);
    case DESC: return call(m, syllable >> 2, true);
    case ADD: return add(m, 0);
    case SUB: return add(m, SIGN);
    case MUL: return multiply(m);
    case IDV: return divide(m);
    case RDV: return remainder_divide(m);
    case GTR: return relate(m, GREATER);
    case GEQ: return relate(m, GREATER | EQUAL);
    case EQL: return relate(m, EQUAL);
    case LEQ: return relate(m, LESS | EQUAL);
    case LSS: return relate(m, LESS);
    case NEQ: return relate(m, LESS | GREATER);
    case LND: return logic_and(m);
    case LOR: return logic_or(m);
    case LQV: return logic_equivalence(m);
    case LNG: return change_a(m, WORD_LIMIT - 1, FLAG - 1);
    case MOP: return change_a(m, ~FLAG, 0);
    case MDS: return change_a(m, ~FLAG, FLAG);
    case SSP: return change_a(m, ~SIGN, 0);
    case SSN: return change_a(m, ~SIGN, SIGN);
    case CHS: return change_a(m, WORD_LIMIT - 1, SIGN);
    case TOP: return test_operand(m);
    case XCH: return exchange(m);
    case DUP: return duplicate(m);
    case DEL: return delete(m);
    case NOP: return SECOND_WENT_ON;
    case LOD: return load(m);
    case STD: return store_and_empty(m);
    case SND: return store(m);
    case INX: return index_address(m);
    case BFW: return branch(m, true);
    case BBW: return branch(m, false);
    case BFC: return branch_conditional(m, true);
    case BBC: return branch_conditional(m, false);
    case MKS: return mark_stack(m);
    case XIT: return exit_procedure(m);
    case COM: return communicate(m);
    default: return SECOND_NOT_BUILT; /* "Others stop 19." */
    }
}

PART int fetch_and_obey(struct machine *m)
{
    uint64_t syllable;
    MUST(fetch(m, &syllable));
    return obey(m, syllable);
}

/* "Every number but 17 leaves registers and core as before that syllable". */
PART int one_syllable(struct machine *m)
{
    struct second_registers before = m->g;
    m->logged = 0;
    int number = fetch_and_obey(m);
    if (number != SECOND_WENT_ON && number != SECOND_COMMUNICATE) {
        undo_writes(m);
        m->g = before;
    }
    return number;
}

#endif
