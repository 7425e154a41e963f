/* The causes in the paper's words. */
#include "causes.h"

#include <stdio.h>

#define AT(operation) (UINT64_C(1) << (operation))
#define FROM(first, last) (2 * AT(last) - AT(first))

/* "Two", "one" and the adjustments that each operator begins with. */
#define NUMBERS FROM(OP_ADD, OP_NEQ)
#define BRANCHES FROM(OP_BFW, OP_BBC)
#define BOTH_FULL                                                                                      \
    (FROM(OP_ADD, OP_LQV) | AT(OP_XCH) | AT(OP_STD) | AT(OP_SND) | AT(OP_INX) | AT(OP_BFC) | AT(OP_BBC))
#define A_FULL                                                                                         \
    (BOTH_FULL | FROM(OP_LNG, OP_CHS) | AT(OP_DUP) | AT(OP_DEL) | AT(OP_LOD) | BRANCHES | AT(OP_COM))
#define CALLS (AT(OP_OPDC) | AT(OP_DESC))
#define PLACES FROM(OP_LOD, OP_SND)
#define REFERENCES (CALLS | PLACES)

static const struct {
    uint64_t number;
    const char *words;
    uint64_t at;
} causes[CAUSES] = {
    [FETCH_OUTSIDE] = {11, "fetch: C not below core length", AT(OP_FETCH)},
    [A_POP_AT_0] = {11, "A full, pop: S=0", A_FULL},
    [A_POP_OUTSIDE] = {11, "A full, pop: S is not below the core length", A_FULL},
    [THEN_POP_AT_0] = {11, "both full, then pop B: S=0", BOTH_FULL},
    [THEN_POP_OUTSIDE] = {11, "both full, then pop B: S is not below the core length", BOTH_FULL},
    [B_POP_AT_0] = {11, "B full, pop: S=0", CALLS | AT(OP_TOP)},
    [B_POP_OUTSIDE] = {11, "B full, pop: S is not below the core length", CALLS | AT(OP_TOP)},
    [EMPTY_A_MEETS] = {12, "A empty, push B: floor((S+1)/64)=R", CALLS | AT(OP_LITC) | AT(OP_TOP)},
    [EMPTY_A_OUTSIDE] = {11, "A empty, push B: S+1 is not below the core length", CALLS | AT(OP_LITC) | AT(OP_TOP)},
    [DUP_MEETS] = {12, "DUP, if B is full push it: floor((S+1)/64)=R", AT(OP_DUP)},
    [DUP_OUTSIDE] = {11, "DUP, if B is full push it: S+1 is not below the core length", AT(OP_DUP)},
    [ENTER_B_MEETS] = {12, "enter, push B: floor((S+1)/64)=R", CALLS},
    [ENTER_B_OUTSIDE] = {11, "enter, push B: S+1 is not below the core length", CALLS},
    [ENTER_MSCW_MEETS] = {12, "enter, push MSCW: floor((S+1)/64)=R", CALLS},
    [ENTER_MSCW_OUTSIDE] = {11, "enter, push MSCW: S+1 is not below the core length", CALLS},
    [ENTER_RCW_MEETS] = {12, "enter, push RCW: floor((S+1)/64)=R", CALLS},
    [ENTER_RCW_OUTSIDE] = {11, "enter, push RCW: S+1 is not below the core length", CALLS},
    [MKS_B_MEETS] = {12, "MKS, push B: floor((S+1)/64)=R", AT(OP_MKS)},
    [MKS_B_OUTSIDE] = {11, "MKS, push B: S+1 is not below the core length", AT(OP_MKS)},
    [MKS_A_MEETS] = {12, "MKS, then A: floor((S+1)/64)=R", AT(OP_MKS)},
    [MKS_A_OUTSIDE] = {11, "MKS, then A: S+1 is not below the core length", AT(OP_MKS)},
    [MKS_MSCW_MEETS] = {12, "MKS, push MSCW: floor((S+1)/64)=R", AT(OP_MKS)},
    [MKS_MSCW_OUTSIDE] = {11, "MKS, push MSCW: S+1 is not below the core length", AT(OP_MKS)},
    [MKS_CELL_OUTSIDE] = {11, "MKS, write that MSCW also at 64R+7: outside core", AT(OP_MKS)},
    [TABLE_OUTSIDE] = {11, "SALF off, 64R+k: not below core length", REFERENCES},
    [PATTERN_0_OUTSIDE] = {11, "0, 64R + low 9 bits: not below core length", REFERENCES},
    [BASE_OUTSIDE] = {11, "base, the word at 64R+7: not below core length", REFERENCES},
    [ABOVE_F_OUTSIDE] = {11, "10, F + low 8: not below core length", REFERENCES},
    [ABOVE_WORD_OUTSIDE] = {11, "10, F field of the word at 64R+7, + low 8: not below core length", REFERENCES},
    [ABOVE_C_OUTSIDE] = {11, "110, the present syllable's word address + low 7: not below core length", REFERENCES},
    [F_BELOW_0] = {11, "111, F - low 7: below 0", REFERENCES},
    [WORD_BELOW_0] = {11, "111, F field of the word at 64R+7, - low 7: below 0", REFERENCES},
    [BELOW_F_OUTSIDE] = {11, "111, F - low 7: not below core length", REFERENCES},
    [BELOW_WORD_OUTSIDE] = {11, "111, F field of the word at 64R+7, - low 7: not below core length", REFERENCES},
    [DATA_ABSENT] = {13, "data descriptor with presence off", CALLS},
    [PROGRAM_ABSENT] = {13, "program descriptor with presence off", CALLS},
    [INDEX_EXPONENT] = {20, "B as index: exponent not 0", CALLS},
    [INDEX_BELOW_0] = {15, "B as index: below 0", CALLS},
    [INDEX_AT_SIZE] = {15, "B as index: the size itself", CALLS},
    [INDEX_PAST_SIZE] = {15, "B as index: over size", CALLS},
    [DESCRIBED_OUTSIDE] = {11, "OPDC reads that address, size 0: outside core", AT(OP_OPDC)},
    [INDEXED_OUTSIDE] = {11, "OPDC reads that address, indexed: outside core", AT(OP_OPDC)},
    [DESCRIBED_FLAG] = {14, "OPDC reads that address, size 0: flag on", AT(OP_OPDC)},
    [INDEXED_FLAG] = {14, "OPDC reads that address, indexed: flag on", AT(OP_OPDC)},
    [MODE_ON] = {19, "program descriptor: mode on", CALLS},
    [A_EXPONENT] = {20, "an exponent not 0: A's", NUMBERS},
    [B_EXPONENT] = {20, "an exponent not 0: B's alone", NUMBERS},
    [PAST_39_BITS] = {20, "result past 39 bits", FROM(OP_ADD, OP_MUL)},
    [BY_0] = {21, "A zero", AT(OP_IDV) | AT(OP_RDV)},
    [BY_MINUS_0] = {21, "A zero, its sign on", AT(OP_IDV) | AT(OP_RDV)},
    [PLACE_ABSENT] = {13, "place: flag on, bit 2 off", PLACES},
    [PLACE_OUTSIDE] = {11, "place, bits 33-47: outside core", PLACES},
    [BRANCH_ABSENT] = {13, "branch: flag on, bit 2 off", BRANCHES},
    [BRANCH_BEFORE_0] = {11, "branch: a target before syllable 0", AT(OP_BBW) | AT(OP_BBC)},
    [BRANCH_BACK_FROM_0] = {11, "branch back from the next one, which after 131,071 is 0", AT(OP_BBW) | AT(OP_BBC)},
    [BRANCH_PAST_END] = {11, "branch: a target after 131,071", AT(OP_BFW) | AT(OP_BFC)},
    [RETURN_OUTSIDE] = {11, "XIT, the word at F: outside core", AT(OP_XIT)},
    [RETURN_FLAG] = {14, "XIT, the word at F: flag off", AT(OP_XIT)},
    [MARK_AT_0] = {11, "XIT, the word at the new F: address 0", AT(OP_XIT)},
    [MARK_OUTSIDE] = {11, "XIT, the word at the new F: outside core", AT(OP_XIT)},
    [MARK_FLAG] = {14, "XIT, the word at the new F: flag off", AT(OP_XIT)},
    [CHAIN_BEGINS_OUTSIDE] = {11, "XIT, read at F: outside core", AT(OP_XIT)},
    [CHAIN_OUTSIDE] = {11, "XIT, follow F fields: outside core", AT(OP_XIT)},
    [CHAIN_TOO_LONG] = {11, "XIT, follow F fields: bit 16 still on at the 32,768th read", AT(OP_XIT)},
    [XIT_CELL_OUTSIDE] = {11, "XIT, write the last word at 64R+7: outside core", AT(OP_XIT)},
    [COM_CELL_OUTSIDE] = {11, "COM, store it at 64R+9: outside core", AT(OP_COM)},
    [OTHERS] = {19, "others", AT(OP_OTHER)},
};

static uint64_t reached[CAUSES][OPERATIONS];

uint64_t cause_number(enum cause cause) { return causes[cause].number; }

bool cause_possible(enum cause cause, enum operation operation)
{
    return (causes[cause].at & AT(operation)) != 0;
}

void cause_count(enum cause cause, enum operation operation) { reached[cause][operation]++; }

/* How often it was met by all the syllables that can meet it, and by the rarest; which of them never did. */
static bool met(enum cause cause, uint64_t least)
{
    uint64_t all = 0, by_each = UINT64_MAX;
    unsigned syllables = 0;
    for (unsigned i = 0; i < OPERATIONS; i++) {
        if (!cause_possible(cause, (enum operation)i))
            continue;
        syllables++;
        all += reached[cause][i];
        by_each = reached[cause][i] < by_each ? reached[cause][i] : by_each;
    }
    printf("%llu: %-74s%8llu, at least %llu by each of %u", (unsigned long long)causes[cause].number,
           causes[cause].words, (unsigned long long)all, (unsigned long long)by_each, syllables);
    for (unsigned i = 0; i < OPERATIONS; i++)
        if (cause_possible(cause, (enum operation)i) && reached[cause][i] == 0)
            printf(", not by %s", operation_name((enum operation)i));
    printf("\n");
    return all >= least && by_each != 0;
}

unsigned causes_missing(uint64_t least)
{
    unsigned missing = 0;
    for (unsigned i = NO_CAUSE + 1; i < CAUSES; i++)
        missing += !met((enum cause)i, least);
    return missing;
}

unsigned causes_all(void) { return CAUSES - 1; }
