/* Broken clauses of 34: each syllable that may break the scan, put into good code. */
#include "rows.h"
#include "../../../codes.h"
#include "clauses.h"
#include "damage.h"

#include <stdio.h>

#define STORES(name, op)                                                                             \
    {name " with no item", EMPTY, {op}}, {name " with one item", EMPTY, {LITERAL_OF_NUMBER, op}},    \
    {name " at a literal of a closed cell", ANYWHERE, {WORD_ITEM, LITERAL_OF_CLOSED, op}},           \
    {name " at a literal of an array cell", ANYWHERE, {WORD_ITEM, LITERAL_OF_ARRAY, op}},            \
    {name " at a literal past the table", ANYWHERE, {WORD_ITEM, LITERAL_PAST_TABLE, op}},            \
    {name " at a number", ANYWHERE, {WORD_ITEM, NUMBER, op}},                                        \
    {name " of a place, at a literal", ANYWHERE, {PLACE, LITERAL_OF_NUMBER, op}},                    \
    {name " of a place, at a place", ANYWHERE, {PLACE, PLACE, op}}
#define BRANCHES(name, op)                                                                           \
    {name " with no item", EMPTY, {op}}, {name " on a number", EMPTY, {NUMBER, op}},                 \
    {name " on a place", EMPTY, {PLACE, op}},                                                        \
    {name " leaving a word", ANYWHERE, {WORD_ITEM, LITERAL, op}},                                    \
    {name " leaving a place", ANYWHERE, {PLACE, LITERAL, op}}
#define CONDITIONALS(name, op)                                                                       \
    {name " with no item", EMPTY, {op}}, {name " with one item", EMPTY, {LITERAL, op}},              \
    {name " on a number", EMPTY, {WORD_ITEM, NUMBER, op}},                                           \
    {name " on a place", EMPTY, {WORD_ITEM, PLACE, op}},                                             \
    {name " with a place as condition", EMPTY, {PLACE, LITERAL, op}},                                \
    {name " leaving a word", ANYWHERE, {WORD_ITEM, WORD_ITEM, LITERAL, op}},                         \
    {name " leaving a place", ANYWHERE, {PLACE, WORD_ITEM, LITERAL, op}}
#define CALLS(name, op)                                                                              \
    {name " of a closed cell", ANYWHERE, {op##_OF_CLOSED}},                                          \
    {name " of a closed cell over a word", ANYWHERE, {WORD_ITEM, op##_OF_CLOSED}},                   \
    {name " past the table", ANYWHERE, {op##_PAST_TABLE}},                                           \
    {name " of an array cell with no item", EMPTY, {op##_OF_ARRAY}},                                 \
    {name " of an array cell over a place", ANYWHERE, {PLACE, op##_OF_ARRAY}}

static const struct row rows[] = {
    {"MDS", ANYWHERE, {WORD_ITEM, MDS}}, {"INX", ANYWHERE, {WORD_ITEM, WORD_ITEM, INX}},
    {"INX on a place", ANYWHERE, {WORD_ITEM, PLACE, INX}},
    {"MKS", ANYWHERE, {MKS}}, {"XIT", ANYWHERE, {XIT}},
    {"an operator not built", ANYWHERE, {UNBUILT}},
    {"an operator not built, over words", ANYWHERE, {WORD_ITEM, WORD_ITEM, UNBUILT}},
    CALLS("OPDC", OPDC), CALLS("DESC", DESC),
    {"XCH with no item", EMPTY, {XCH}}, {"XCH with one item", EMPTY, {WORD_ITEM, XCH}},
    {"DUP with no item", EMPTY, {DUP}}, {"DEL with no item", EMPTY, {DEL}},
    {"LOD with no item", EMPTY, {LOD}},
    {"LOD at a literal of a closed cell", ANYWHERE, {LITERAL_OF_CLOSED, LOD}},
    {"LOD at a literal of an array cell", ANYWHERE, {LITERAL_OF_ARRAY, LOD}},
    {"LOD at a literal past the table", ANYWHERE, {LITERAL_PAST_TABLE, LOD}},
    {"LOD at a number", ANYWHERE, {NUMBER, LOD}},
    STORES("STD", STD), STORES("SND", SND),
    BRANCHES("BFW", BFW), BRANCHES("BBW", BBW), CONDITIONALS("BFC", BFC), CONDITIONALS("BBC", BBC),
};
/* Cell 9 is closed, an array cell, and for the rest a number cell. */
static const struct row com_rows[] = {
    {"COM with cell 9 closed", EMPTY, {WORD_ITEM, COM}},
    {"COM with cell 9 an array cell", EMPTY, {WORD_ITEM, COM}},
    {"COM with no item", EMPTY, {COM}},
    {"COM on a place", EMPTY, {PLACE, COM}},
    {"COM leaving a word", ANYWHERE, {WORD_ITEM, WORD_ITEM, COM}},
    {"COM leaving a place", ANYWHERE, {PLACE, WORD_ITEM, COM}},
    {"COM over the word that TOP keeps", EMPTY, {WORD_ITEM, TOP, COM}},
    {"COM over the word that SND keeps", EMPTY, {WORD_ITEM, LITERAL_OF_NUMBER, SND, LITERAL, COM}},
};

static const struct row two_rows[] = {
    {"with no item", EMPTY, {0}}, {"with one item", EMPTY, {WORD_ITEM}},
    {"over a place in A", ANYWHERE, {WORD_ITEM, PLACE}}, {"over a place in B", ANYWHERE, {PLACE, WORD_ITEM}}};
static const struct row one_rows[] = {{"with no item", EMPTY, {0}}, {"over a place", ANYWHERE, {PLACE}}};

enum { TWO_ROWS = 4, ONE_ROWS = 2 };

static bool spoil_row(struct segment *seg, unsigned which, uint64_t *place)
{
    return put_row(seg, &rows[which], place);
}

static bool spoil_com(struct segment *seg, unsigned which, uint64_t *place)
{
    return put_row(seg, &com_rows[which], place);
}

static void wants_cell_9(struct wish *wish, unsigned which)
{
    wish->cell_9 = which == 0 ? CLOSED_CELL : which == 1 ? ARRAY_CELL : NUMBER_CELL;
    if (which < 2)
        wish->last = NO_AREA;
}

static bool put_operator(struct segment *seg, struct row row, unsigned code, uint64_t *place)
{
    unsigned i = 0;
    while (row.part[i] != 0)
        i++;
    row.part[i] = code;
    return put_row(seg, &row, place);
}

static bool spoil_two(struct segment *seg, unsigned which, uint64_t *place)
{
    return put_operator(seg, two_rows[which % TWO_ROWS], twos[which / TWO_ROWS].code, place);
}

static bool spoil_one(struct segment *seg, unsigned which, uint64_t *place)
{
    return put_operator(seg, one_rows[which % ONE_ROWS], ones[which / ONE_ROWS].code, place);
}

/* ---- the list */

static void list(spoil *how, const struct row *of, unsigned count)
{
    for (unsigned i = 0; i < count; i++)
        add_clause(34, of[i].name, how, i)->of_code = true;
}

static void list_operator(const char *name, spoil *how, const struct row *of, unsigned count, unsigned which)
{
    char text[60];
    for (unsigned i = 0; i < count; i++) {
        snprintf(text, sizeof text, "%s %s", name, of[i].name);
        add_clause(34, text, how, which * count + i)->of_code = true;
    }
}

void list_code_clauses(void)
{
    list(spoil_row, rows, COUNT(rows));
    for (unsigned i = 0; i < COUNT(com_rows); i++) {
        struct clause *c = add_clause(34, com_rows[i].name, spoil_com, i);
        c->of_code = true;
        c->wants = wants_cell_9;
    }
    for (unsigned i = 0; i < TWOS; i++)
        list_operator(twos[i].name, spoil_two, two_rows, TWO_ROWS, i);
    for (unsigned i = 0; i < ONES; i++)
        list_operator(ones[i].name, spoil_one, one_rows, ONE_ROWS, i);
}
