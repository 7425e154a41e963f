/* The syllables of paper 01, by name: for tests, which do not trust the machine's own table. */
#ifndef SECOND_CODES_H
#define SECOND_CODES_H

enum {
    ADD = 00101, SUB = 00301, MUL = 00401, IDV = 03001, RDV = 07001,
    GTR = 00225, GEQ = 00125, EQL = 04425, LEQ = 04125, LSS = 04225, NEQ = 00425,
    LND = 00415, LOR = 00215, LQV = 01015, LNG = 00115,
    MOP = 02015, MDS = 04015, SSP = 04431, SSN = 00431, CHS = 01031, TOP = 02031,
    XCH = 01025, DUP = 02025, DEL = 00065, NOP = 00055,
    LOD = 02021, STD = 00421, SND = 01021, INX = 00141,
    BFW = 04231, BBW = 04131, BFC = 00231, BBC = 00131,
    MKS = 00441, XIT = 00435, COM = 01011
};
#define LITC(k) ((unsigned)(k) << 2)
#define OPDC(k) ((unsigned)(k) << 2 | 2)
#define DESC(k) ((unsigned)(k) << 2 | 3)

#endif
