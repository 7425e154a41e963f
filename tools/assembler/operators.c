/* The operators of paper 01: their names and octal codes. */
#include "assembler.h"

#include <stddef.h>
#include <string.h>

static const struct {
    const char *name;
    unsigned bits;
} operators[] = {
    {"ADD", 00101}, {"SUB", 00301}, {"MUL", 00401}, {"IDV", 03001}, {"RDV", 07001},
    {"GTR", 00225}, {"GEQ", 00125}, {"EQL", 04425}, {"LEQ", 04125}, {"LSS", 04225}, {"NEQ", 00425},
    {"LND", 00415}, {"LOR", 00215}, {"LQV", 01015}, {"LNG", 00115},
    {"MOP", 02015}, {"MDS", 04015}, {"SSP", 04431}, {"SSN", 00431}, {"CHS", 01031}, {"TOP", 02031},
    {"XCH", 01025}, {"DUP", 02025}, {"DEL", 00065}, {"NOP", NOP},
    {"LOD", 02021}, {"STD", 00421}, {"SND", 01021}, {"INX", 00141},
    {"BFW", 04231}, {"BBW", 04131}, {"BFC", 00231}, {"BBC", 00131},
    {"MKS", 00441}, {"XIT", 00435}, {"COM", 01011},
};
enum { OPERATORS = sizeof operators / sizeof *operators };

bool operator_code(const char *name, unsigned *bits)
{
    for (size_t i = 0; i < OPERATORS; i++)
        if (strcmp(operators[i].name, name) == 0) {
            *bits = operators[i].bits;
            return true;
        }
    return false;
}

const char *operator_name(unsigned bits)
{
    for (size_t i = 0; i < OPERATORS; i++)
        if (operators[i].bits == bits)
            return operators[i].name;
    return NULL;
}
