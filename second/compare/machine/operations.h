/* Each operator of paper 01 in its order, then the other kinds of a syllable, then no syllable at all. */
#ifndef SECOND_OPERATIONS_H
#define SECOND_OPERATIONS_H

#include "state.h"

enum operation {
    OP_ADD, OP_SUB, OP_MUL, OP_IDV, OP_RDV, OP_GTR, OP_GEQ, OP_EQL, OP_LEQ, OP_LSS, OP_NEQ,
    OP_LND, OP_LOR, OP_LQV, OP_LNG, OP_MOP, OP_MDS, OP_SSP, OP_SSN, OP_CHS, OP_TOP,
    OP_XCH, OP_DUP, OP_DEL, OP_NOP, OP_LOD, OP_STD, OP_SND, OP_INX,
    OP_BFW, OP_BBW, OP_BFC, OP_BBC, OP_MKS, OP_XIT, OP_COM, OPERATORS,
    OP_LITC = OPERATORS, OP_OPDC, OP_DESC, OP_OTHER, OP_FETCH, OPERATIONS
};

unsigned operator_code(unsigned operator);
const char *operation_name(enum operation operation);

/* The syllable at C, L, which is in core. */
unsigned syllable_at(const struct state *st);
void put_syllable(struct state *st, uint64_t c, uint64_t l, unsigned syllable);
/* What a state would obey; OP_FETCH if C is outside core. */
enum operation operation_of(const struct state *st);

#endif
