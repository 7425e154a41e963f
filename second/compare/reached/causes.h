/* Each cause of a stop in paper 01's sentences: where it can be met, and how often it was. */
#ifndef SECOND_CAUSES_H
#define SECOND_CAUSES_H

#include "../machine/operations.h"

/* After a push that meets the table (12) comes the same outside core (11), after a pop at 0 one outside core. */
enum cause {
    NO_CAUSE, FETCH_OUTSIDE,
    A_POP_AT_0, A_POP_OUTSIDE, THEN_POP_AT_0, THEN_POP_OUTSIDE, B_POP_AT_0, B_POP_OUTSIDE,
    EMPTY_A_MEETS, EMPTY_A_OUTSIDE, DUP_MEETS, DUP_OUTSIDE,
    ENTER_B_MEETS, ENTER_B_OUTSIDE, ENTER_MSCW_MEETS, ENTER_MSCW_OUTSIDE, ENTER_RCW_MEETS, ENTER_RCW_OUTSIDE,
    MKS_B_MEETS, MKS_B_OUTSIDE, MKS_A_MEETS, MKS_A_OUTSIDE, MKS_MSCW_MEETS, MKS_MSCW_OUTSIDE, MKS_CELL_OUTSIDE,
    TABLE_OUTSIDE, PATTERN_0_OUTSIDE, BASE_OUTSIDE, ABOVE_F_OUTSIDE, ABOVE_WORD_OUTSIDE, ABOVE_C_OUTSIDE,
    F_BELOW_0, WORD_BELOW_0, BELOW_F_OUTSIDE, BELOW_WORD_OUTSIDE,
    DATA_ABSENT, PROGRAM_ABSENT, INDEX_EXPONENT, INDEX_BELOW_0, INDEX_AT_SIZE, INDEX_PAST_SIZE,
    DESCRIBED_OUTSIDE, INDEXED_OUTSIDE, DESCRIBED_FLAG, INDEXED_FLAG, MODE_ON,
    A_EXPONENT, B_EXPONENT, PAST_39_BITS, BY_0, BY_MINUS_0,
    PLACE_ABSENT, PLACE_OUTSIDE,
    BRANCH_ABSENT, BRANCH_BEFORE_0, BRANCH_BACK_FROM_0, BRANCH_PAST_END,
    RETURN_OUTSIDE, RETURN_FLAG, MARK_AT_0, MARK_OUTSIDE, MARK_FLAG,
    CHAIN_BEGINS_OUTSIDE, CHAIN_OUTSIDE, CHAIN_TOO_LONG, XIT_CELL_OUTSIDE,
    COM_CELL_OUTSIDE, OTHERS, CAUSES
};

/* The number that it gives; 0 for no cause. */
uint64_t cause_number(enum cause cause);
/* Whether the paper lets that syllable meet it. */
bool cause_possible(enum cause cause, enum operation operation);
void cause_count(enum cause cause, enum operation operation);

/* Prints the table; answers how many causes were met less often than `least`, or never by a syllable
   that can meet them, of how many. */
unsigned causes_missing(uint64_t least);
unsigned causes_all(void);

#endif
