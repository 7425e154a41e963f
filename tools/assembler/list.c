/* The listing: the sheet's records and the code, with the places that the inspector names. */
#include "assembler.h"

#include <stdio.h>

static void list_records(void)
{
    static const char *const kinds[] = {"", "code", "stack", "number", "array", "table"};
    const struct area *areas[] = {&segment.code, &segment.stack, &segment.table};
    const enum kind area_kinds[] = {CODE, STACK, TABLE};
    unsigned record = 0;
    printf("record  kind    first  count\n");
    for (; record < 3; record++)
        printf("%6u  %-6s  %5u  %5u\n", record, kinds[area_kinds[record]], areas[record]->first,
               areas[record]->count);
    for (unsigned i = 0; i < MOST_CELLS; i++) {
        const struct cell *cell = &segment.cell[i];
        if (cell->kind != CLOSED)
            printf("%6u  %-6s  %5u  %5u%s%s\n", record++, kinds[cell->kind], i, 1,
                   cell->name == NULL ? "" : "  ", cell->name == NULL ? "" : cell->name);
    }
}

static void list_syllable(unsigned bits)
{
    static const char *const calls[] = {[LITC] = "LITC", [OPDC] = "OPDC", [DESC] = "DESC"};
    unsigned kind = bits & 3, k = bits >> 2;
    if (kind == OPERATOR)
        printf("%s", operator_name(bits) == NULL ? "not built" : operator_name(bits));
    else if (kind == LITC || segment.cell[k].name == NULL)
        printf("%s %u", calls[kind], k);
    else
        printf("%s %s", calls[kind], segment.cell[k].name);
}

void list(void)
{
    list_records();
    printf("\nsyllable  word   L  octal  line\n");
    for (unsigned i = 0; i < segment.syllables; i++) {
        unsigned address = segment.code.first + i / 4;
        /* from the word as it is laid, since a 'word' line may have changed it */
        unsigned bits = (unsigned)(segment.word[address] >> (36 - 12 * (i % 4)) & 07777);
        printf("%8u  %05o  %u  %04o   %-4u  ", i, address, i % 4, bits, segment.syllable[i].line);
        list_syllable(bits);
        putchar('\n');
    }
}
