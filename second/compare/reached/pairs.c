/* Each operator of paper 01, and the numbers that its syllable can answer. */
#include "pairs.h"

#include <stdio.h>

enum { COLUMNS = 10 };
static const unsigned columns[COLUMNS] = {0, 11, 12, 13, 14, 15, 17, 19, 20, 21};

#define CAN(column) (1U << (column))
enum {
    WENT = CAN(0), ADDRESS = CAN(1), OVERFLOWS = CAN(2), PRESENCE = CAN(3), FLAG = CAN(4),
    INDEX = CAN(5), COMMUNICATES = CAN(6), NOT_BUILT = CAN(7), NOT_WHOLE = CAN(8), ZERO = CAN(9)
};

/* The reachable pairs. "Two" and "one" may pop (11); what makes A empty may push (12, 11). */
enum {
    ONE = WENT | ADDRESS,
    NUMBERS = ONE | NOT_WHOLE,
    DIVIDES = NUMBERS | ZERO,
    PUSHES = ONE | OVERFLOWS,
    PLACES = ONE | PRESENCE,
    DESCRIBES = PUSHES | PRESENCE | INDEX | NOT_BUILT | NOT_WHOLE
};

static const unsigned can[OPERATIONS] = {
    [OP_ADD] = NUMBERS, [OP_SUB] = NUMBERS, [OP_MUL] = NUMBERS, [OP_IDV] = DIVIDES, [OP_RDV] = DIVIDES,
    [OP_GTR] = NUMBERS, [OP_GEQ] = NUMBERS, [OP_EQL] = NUMBERS, [OP_LEQ] = NUMBERS, [OP_LSS] = NUMBERS,
    [OP_NEQ] = NUMBERS, [OP_LND] = ONE, [OP_LOR] = ONE, [OP_LQV] = ONE, [OP_LNG] = ONE, [OP_MOP] = ONE,
    [OP_MDS] = ONE, [OP_SSP] = ONE, [OP_SSN] = ONE, [OP_CHS] = ONE, [OP_TOP] = PUSHES, [OP_XCH] = ONE,
    [OP_DUP] = PUSHES, [OP_DEL] = ONE, [OP_NOP] = WENT, [OP_LOD] = PLACES, [OP_STD] = PLACES,
    [OP_SND] = PLACES, [OP_INX] = ONE, [OP_BFW] = PLACES, [OP_BBW] = PLACES, [OP_BFC] = PLACES,
    [OP_BBC] = PLACES, [OP_MKS] = PUSHES, [OP_XIT] = ONE | FLAG, [OP_COM] = COMMUNICATES | ADDRESS,
    [OP_LITC] = PUSHES, [OP_OPDC] = DESCRIBES | FLAG, [OP_DESC] = DESCRIBES, [OP_OTHER] = NOT_BUILT,
    [OP_FETCH] = ADDRESS};

static uint64_t reached[OPERATIONS][COLUMNS];

static unsigned column_of(uint64_t number)
{
    for (unsigned j = 0; j < COLUMNS; j++)
        if (columns[j] == number)
            return j;
    return COLUMNS;
}

bool pair_possible(enum operation operation, uint64_t number)
{
    unsigned j = column_of(number);
    return j < COLUMNS && (can[operation] & CAN(j)) != 0;
}

void pair_count(enum operation operation, uint64_t number)
{
    reached[operation][column_of(number)]++;
}

unsigned pairs_missing(void)
{
    unsigned missing = 0;
    printf("%-8s", "");
    for (unsigned j = 0; j < COLUMNS; j++)
        printf("%8u", columns[j]);
    printf("\n");
    for (unsigned i = 0; i < OPERATIONS; i++) {
        printf("%-8s", operation_name((enum operation)i));
        for (unsigned j = 0; j < COLUMNS; j++) {
            if ((can[i] & CAN(j)) == 0)
                printf("%8s", "-");
            else
                printf("%8llu", (unsigned long long)reached[i][j]);
            missing += (can[i] & CAN(j)) != 0 && reached[i][j] == 0;
        }
        printf("\n");
    }
    return missing;
}

unsigned pairs_all(void)
{
    unsigned all = 0;
    for (unsigned i = 0; i < OPERATIONS; i++)
        for (unsigned j = 0; j < COLUMNS; j++)
            all += (can[i] & CAN(j)) != 0;
    return all;
}
