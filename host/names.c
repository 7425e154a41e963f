#include "names.h"

#include <stdio.h>

static const struct {
    unsigned syllable;
    const char *name;
} operators[] = {
    {00101, "ADD"}, {00301, "SUB"}, {00401, "MUL"}, {03001, "IDV"}, {07001, "RDV"},
    {00225, "GTR"}, {00125, "GEQ"}, {04425, "EQL"}, {04125, "LEQ"}, {04225, "LSS"}, {00425, "NEQ"},
    {00415, "LND"}, {00215, "LOR"}, {01015, "LQV"}, {00115, "LNG"},
    {02015, "MOP"}, {04015, "MDS"}, {04431, "SSP"}, {00431, "SSN"}, {01031, "CHS"}, {02031, "TOP"},
    {01025, "XCH"}, {02025, "DUP"}, {00065, "DEL"}, {00055, "NOP"},
    {02021, "LOD"}, {00421, "STD"}, {01021, "SND"}, {00141, "INX"},
    {04231, "BFW"}, {04131, "BBW"}, {00231, "BFC"}, {00131, "BBC"},
    {00441, "MKS"}, {00435, "XIT"}, {01011, "COM"},
};

const char *operator_name(unsigned syllable)
{
    for (size_t i = 0; i < sizeof operators / sizeof operators[0]; i++)
        if (operators[i].syllable == syllable)
            return operators[i].name;
    return NULL;
}

void syllable_text(unsigned syllable, char *text, size_t room)
{
    const char *kinds[] = {"LITC", NULL, "OPDC", "DESC"};
    const char *kind = kinds[syllable & 3];
    const char *name = operator_name(syllable);

    if (kind)
        snprintf(text, room, "%s %03o", kind, syllable >> 2);
    else
        snprintf(text, room, "%s", name ? name : "not built");
}
