/* Operator numbers, in the paper's order; written from paper 01 alone. */
#ifndef SECOND_TABLE_H
#define SECOND_TABLE_H

#include <stdint.h>

enum operator_number {
    NOT_BUILT,
    ADD, SUB, MUL, IDV, RDV,
    GTR, GEQ, EQL, LEQ, LSS, NEQ,
    LND, LOR, LQV, LNG,
    MOP, MDS, SSP, SSN, CHS, TOP,
    XCH, DUP, DEL, NOP,
    LOD, STD, SND, INX,
    BFW, BBW, BFC, BBC,
    MKS, XIT, COM,
    LITC, OPDC, DESC
};

/* "all 4,096 syllables stand in one table of operator numbers" */
extern const uint8_t second_table[4096];

#endif
