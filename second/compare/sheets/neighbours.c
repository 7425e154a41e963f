/*
 * Stored cases: two readers' histories as neighbouring arrays, and a segment that posts a loan in one
 * of them, by an index it keeps in a cell. One past the end is stopped, and the neighbour stays.
 */
#include "sheets.h"
#include "../../codes.h"
#include "both_sheets.h"

#include <stdio.h>
#include <string.h>

/* Code at 0, stack from 32 on, table at 64, the first history at 200, the second right after it. */
enum { LENGTH = 240, S = 31, ROOM = 4, TABLE = 64, FIRST = 200, SIZE = 10, SECOND = FIRST + SIZE };
/* Cells: the loan, the index, the word for the host; the two histories. */
enum { LOAN = 7, INDEX = 8, HOST = 9, FIRST_READER = 20, SECOND_READER = 21 };

#define WORD_OF(a, b, c, d) ((uint64_t)(a) << 36 | (uint64_t)(b) << 24 | (uint64_t)(c) << 12 | (uint64_t)(d))

static const struct {
    const char *name;
    unsigned reader;
    uint64_t index; /* as it stands in the cell */
    uint64_t stop, completed;
    size_t posted; /* the word that gets the loan, or 0 */
} cases[] = {
    {"the last of the first history", FIRST_READER, SIZE - 1, 17, 12, SECOND - 1},
    {"one past the first history", FIRST_READER, SIZE, 15, 2, 0},
    {"far past the first history", FIRST_READER, SIZE + SIZE - 1, 15, 2, 0},
    {"the first of the second history", SECOND_READER, 0, 17, 12, SECOND},
    {"the first of the second history, index -0", SECOND_READER, ON(1), 17, 12, SECOND},
    {"one before the second history", SECOND_READER, ON(1) | 1, 15, 2, 0},
    {"one past the second history", SECOND_READER, SIZE, 15, 2, 0},
};
enum { CASES = sizeof cases / sizeof *cases };

unsigned neighbours_all(void) { return CASES; }

static struct segment seg;

static void lay_out(unsigned reader, uint64_t index)
{
    static const uint8_t sheet[] = {1, 0, 0, 0, 0, 3, 2, 0, 0, S, 0, ROOM, 5, 0, 0, 1, 0, 64,
                                    3, 0, 0, LOAN, 0, 3, 4, 0, 0, FIRST_READER, 0, 2};
    uint64_t *core = seg.st.core;
    memset(core, 0, sizeof *core * LENGTH);
    /* history[index] := loan; index := index + 1; tell the host. */
    core[0] = WORD_OF(OPDC(LOAN), OPDC(INDEX), DESC(reader), STD);
    core[1] = WORD_OF(OPDC(INDEX), LITC(1), ADD, LITC(INDEX));
    core[2] = WORD_OF(STD, NOP, OPDC(INDEX), COM);
    core[TABLE + LOAN] = 4711;
    core[TABLE + INDEX] = index;
    core[TABLE + FIRST_READER] = ON(0) | ON(2) | (uint64_t)SIZE << 30 | FIRST;
    core[TABLE + SECOND_READER] = ON(0) | ON(2) | (uint64_t)SIZE << 30 | SECOND;
    for (unsigned i = 0; i < 2 * SIZE; i++)
        core[FIRST + i] = 100 + i;
    seg.st.length = LENGTH;
    seg.core_length = WORD * LENGTH;
    memcpy(seg.sheet, sheet, sizeof sheet);
    seg.sheet_length = sizeof sheet;
}

/* Every word that must not change is as it was; what must change has. */
static const char *wrong(unsigned n, struct posted v, const uint64_t *before)
{
    if (v.difference != NULL)
        return v.difference;
    if (v.number != 0 || v.stop != cases[n].stop || v.completed != cases[n].completed)
        return "the stop or the count is not the stored one";
    for (size_t i = 0; i < LENGTH; i++) {
        bool moves = cases[n].posted != 0 && (i == cases[n].posted || i == TABLE + INDEX || i == TABLE + HOST);
        if (!moves && seg.st.core[i] != before[i] && !(cases[n].posted != 0 && i > S && i <= S + ROOM))
            return "a word that is nobody's to change";
    }
    if (cases[n].posted != 0 && seg.st.core[cases[n].posted] != 4711)
        return "the loan is not posted";
    return NULL;
}

unsigned group_neighbours(void)
{
    static uint64_t before[LENGTH];
    unsigned failures = 0;
    for (unsigned n = 0; n < CASES; n++) {
        lay_out(cases[n].reader, cases[n].index);
        memcpy(before, seg.st.core, sizeof before);
        const char *what = wrong(n, both_post(&seg, 1000, ROW), before);
        if (what == NULL)
            continue;
        printf("compare: difference: neighbours, %s: %s\n", cases[n].name, what);
        failures++;
    }
    return failures;
}
