/* The table of all 4,096 syllables, written from paper 01 alone. */
#include "table.h"

/* "by its last two bits 00, 10, 11, 01": literal, operand call, descriptor call; 01 is
   left to the operators. */
#define CALLS(s) [(s)] = LITC, [(s) + 2] = OPDC, [(s) + 3] = DESC
#define CALLS4(s) CALLS(s), CALLS((s) + 4), CALLS((s) + 8), CALLS((s) + 12)
#define CALLS16(s) CALLS4(s), CALLS4((s) + 16), CALLS4((s) + 32), CALLS4((s) + 48)
#define CALLS64(s) CALLS16(s), CALLS16((s) + 64), CALLS16((s) + 128), CALLS16((s) + 192)
#define CALLS256(s) CALLS64(s), CALLS64((s) + 256), CALLS64((s) + 512), CALLS64((s) + 768)

const uint8_t second_table[4096] = {
    CALLS256(0), CALLS256(1024), CALLS256(2048), CALLS256(3072),
    [00101] = ADD, [00301] = SUB, [00401] = MUL, [03001] = IDV, [07001] = RDV,
    [00225] = GTR, [00125] = GEQ, [04425] = EQL, [04125] = LEQ, [04225] = LSS, [00425] = NEQ,
    [00415] = LND, [00215] = LOR, [01015] = LQV, [00115] = LNG,
    [02015] = MOP, [04015] = MDS, [04431] = SSP, [00431] = SSN, [01031] = CHS, [02031] = TOP,
    [01025] = XCH, [02025] = DUP, [00065] = DEL, [00055] = NOP,
    [02021] = LOD, [00421] = STD, [01021] = SND, [00141] = INX,
    [04231] = BFW, [04131] = BBW, [00231] = BFC, [00131] = BBC,
    [00441] = MKS, [00435] = XIT, [01011] = COM,
};
