/* Stored sheets: paper 01's own example of the inspector, by both. */
#include "sheets.h"
#include "../../codes.h"
#include "both_sheets.h"

#include <stdio.h>
#include <string.h>

/* "code LITC 5, LITC 7, ADD, COM: d=2 passes; d=1: 34 at syllable 1; cell 9 closed: 34 at 3" */
static const struct {
    const char *name;
    uint8_t room;
    size_t records;
    uint64_t number, place;
} cases[] = {
    {"01: d 2", 2, 4, 0, 0},
    {"01: d 1", 1, 4, 34, 1},
    {"01: cell 9 closed", 2, 3, 34, 3},
};
enum { CASES = sizeof cases / sizeof *cases, LENGTH = 128 };

unsigned stored_sheets_all(void) { return CASES; }

static struct segment seg;

static void lay_out(uint8_t room, size_t records)
{
    const uint8_t sheet[] = {1, 0, 0, 0, 0, 1, 2, 0, 0, 31, 0, room, 5, 0, 0, 1, 0, 64, 3, 0, 0, 9, 0, 1};
    memset(seg.st.core, 0, sizeof *seg.st.core * LENGTH);
    seg.st.core[0] = (uint64_t)LITC(5) << 36 | (uint64_t)LITC(7) << 24 | ADD << 12 | COM;
    seg.st.length = LENGTH;
    seg.core_length = WORD * LENGTH;
    memcpy(seg.sheet, sheet, sizeof sheet);
    seg.sheet_length = 6 * records;
}

/* Inspected, then posted: the sum is told to the host, or nothing is done. */
static const char *wrong(unsigned n)
{
    lay_out(cases[n].room, cases[n].records);
    struct inspected v = both_inspect(&seg);
    if (v.difference != NULL)
        return v.difference;
    if (v.number != cases[n].number || v.place != cases[n].place)
        return "the number or the place is not the stored one";
    struct posted posted = both_post(&seg, 1000, ROW);
    if (posted.difference != NULL)
        return posted.difference;
    if (posted.number != v.number || posted.place != v.place || posted.completed != (v.number == 0 ? 4 : 0))
        return "the post is not the stored one";
    return seg.st.core[73] == (v.number == 0 ? 12 : 0) ? NULL : "cell 9 is not the stored one";
}

unsigned group_stored_sheets(void)
{
    unsigned failures = 0;
    for (unsigned n = 0; n < CASES; n++) {
        const char *what = wrong(n);
        if (what == NULL)
            continue;
        printf("compare: difference: stored sheet, %s: %s\n", cases[n].name, what);
        failures++;
    }
    return failures;
}
