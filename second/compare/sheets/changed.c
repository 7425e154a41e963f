/* Sheets and cores changed anywhere: the two inspectors need only agree. */
#include "sheets.h"
#include "../machine/operations.h"
#include "../maker/chance.h"
#include "both_sheets.h"
#include "making/passing.h"

#include <stdio.h>

static struct segment seg;

static unsigned failed(uint64_t i, const char *what)
{
    printf("compare: difference: changed anywhere, case %llu: %s\n", (unsigned long long)i, what);
    return 1;
}

static void change_syllable(void)
{
    unsigned at = below(seg.program.made), shift = 36 - 12 * (at % 4);
    uint64_t *word = &seg.st.core[seg.record[0].first + at / 4];
    unsigned syllable = one_in(2) ? below(4096) : operator_code(below(OPERATORS));
    *word = (*word & ~((uint64_t)07777 << shift)) | (uint64_t)syllable << shift;
}

static void change_cell(void)
{
    uint64_t *word = &seg.st.core[64 * seg.record[2].first + below(seg.table)];
    *word ^= one_in(2) ? ON(chance(18)) : ON(chance(48));
}

static void change_sheet(void)
{
    unsigned at = one_in(2) ? below(18) : below(seg.sheet_length);
    seg.sheet[at] = (uint8_t)(one_in(2) ? chance(256) : seg.sheet[at] + 1 - 2 * chance(2));
}

static void change_anything(void)
{
    switch (chance(8)) {
    case 0: case 1: case 2: change_syllable(); break;
    case 3: change_cell(); break;
    case 4: case 5: change_sheet(); break;
    case 6: seg.st.core[chance(seg.st.length)] ^= ON(0); break;
    default:
        if (seg.st.length > 1)
            seg.st.length -= 1 + chance(seg.st.length > 80 ? 20 : 1);
        seg.core_length = WORD * seg.st.length;
        break;
    }
}

unsigned group_changed(uint64_t count)
{
    uint64_t reached[37] = {0};
    unsigned failures = 0;
    for (uint64_t i = 0; i < count; i++) {
        struct wish wish = any_wish();
        make_segment(&seg, &wish);
        for (uint64_t n = 1 + chance(3); n != 0; n--)
            change_anything();
        struct inspected v = both_inspect(&seg);
        if (v.difference != NULL)
            failures += failed(i, v.difference);
        else
            reached[v.number]++;
    }
    for (unsigned number = 0; number < 37; number++) {
        bool wanted = number == 0 || (number >= 31 && number <= 35);
        if (wanted || reached[number] != 0)
            printf("changed anywhere: %u: %llu\n", number, (unsigned long long)reached[number]);
        if (wanted && reached[number] == 0)
            failures += failed(number, "a number that was never met");
    }
    return failures;
}
