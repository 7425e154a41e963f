/* Broken clauses of 34: results that are no literals, more items than d, the last syllable. */
#include "rows.h"
#include "../../../codes.h"
#include "../../maker/chance.h"
#include "../making/emit.h"
#include "clauses.h"
#include "damage.h"

#include <stdio.h>

/* ---- what an operator leaves is no literal: not to branch by, not to store at */

enum { USES = 2 };
static const char *const use_names[USES] = {"branch by what %s leaves", "store at what %s leaves"};

static bool spoil_result(struct segment *seg, unsigned which, uint64_t *place)
{
    struct program *p = &seg->program;
    unsigned operator = which / USES, use = which % USES, items = 4;
    unsigned at = chance_point(p, use == 0 ? EMPTY : ANYWHERE);
    begin_row();
    if (use == 1)
        make_part(seg, WORD_ITEM);
    if (operator < TWOS)
        make_result(seg, twos[operator].code, true);
    else
        make_result(seg, ones[operator - TWOS].code, false);
    emit(&made_row, use == 0 ? BBW : STD, 0);
    if (!insert_row(p, at))
        return false;
    need_room(seg, p->items_before[at] + items);
    *place = at + made_row.made - 1;
    return true;
}

/* ---- more than d */

static const struct {
    const char *name;
    unsigned part, least;
} growing[] = {{"LITC past d", LITERAL, 0}, {"OPDC past d", OPDC_OF_NUMBER, 0}, {"DESC past d", DESC_OF_NUMBER, 0},
               {"DUP past d", DUP, 1}, {"TOP past d", TOP, 1}};

/* Literals up to d, which is what the code before needs or some more, and one item more. */
static bool spoil_room(struct segment *seg, unsigned which, uint64_t *place)
{
    struct program *p = &seg->program;
    unsigned at = chance_point(p, one_in(2) ? EMPTY : ANYWHERE), room = 0;
    for (unsigned i = 0; i <= at; i++)
        room = p->items_before[i] > room ? p->items_before[i] : room;
    if (room < p->items_before[at] + growing[which].least)
        room = p->items_before[at] + growing[which].least;
    room += one_in(2) ? 0 : below(one_in(20) ? 1024 - room : 6);
    begin_row();
    for (unsigned i = p->items_before[at]; i < room; i++)
        if (!make_part(seg, LITERAL))
            return false;
    /* What stands on top for DUP and TOP is then a literal. */
    if (growing[which].least != 0 && made_row.made == 0)
        return false;
    if (!make_part(seg, growing[which].part) || !insert_row(p, at))
        return false;
    seg->room = room;
    *place = at + made_row.made - 1;
    return true;
}

/* No room at all: the first syllable that needs some breaks. */
static bool spoil_no_room(struct segment *seg, unsigned which, uint64_t *place)
{
    (void)which;
    const struct program *p = &seg->program;
    unsigned at = 0;
    while (p->items_before[at + 1] == 0)
        at++;
    seg->room = 0;
    *place = at;
    return true;
}

/* ---- the last syllable */

static const struct row ends[] = {
    {"the last syllable is LITC", EMPTY, {LITERAL}}, {"the last syllable is OPDC", EMPTY, {NUMBER}},
    {"the last syllable is DESC", EMPTY, {PLACE}}, {"the last syllable is ADD", EMPTY, {WORD_ITEM, WORD_ITEM, ADD}},
    {"the last syllable is CHS", EMPTY, {WORD_ITEM, CHS}}, {"the last syllable is TOP", EMPTY, {WORD_ITEM, TOP}},
    {"the last syllable is XCH", EMPTY, {WORD_ITEM, WORD_ITEM, XCH}},
    {"the last syllable is DUP", EMPTY, {WORD_ITEM, DUP}}, {"the last syllable is DEL", EMPTY, {WORD_ITEM, DEL}},
    {"the last syllable is NOP", EMPTY, {NOP}}, {"the last syllable is LOD", EMPTY, {LITERAL_OF_NUMBER, LOD}},
    {"the last syllable is STD", EMPTY, {WORD_ITEM, LITERAL_OF_NUMBER, STD}},
    {"the last syllable is SND", EMPTY, {WORD_ITEM, LITERAL_OF_NUMBER, SND}},
    {"the last syllable is BFC", EMPTY, {WORD_ITEM, LITERAL, BFC}},
    {"the last syllable is BBC", EMPTY, {WORD_ITEM, LITERAL, BBC}},
};

/* Good by its own rule, with room for it, in the place of the two syllables that end the code. */
static bool spoil_end(struct segment *seg, unsigned which, uint64_t *place)
{
    struct program *p = &seg->program;
    unsigned items;
    if (!make_row(seg, ends[which].part, &items) || p->made + made_row.made > MOST_SYLLABLES)
        return false;
    p->made -= 2;
    while ((p->made + made_row.made) % 4 != 0)
        p->syllable[p->made++] = NOP;
    if (!insert_row(p, p->made))
        return false;
    need_room(seg, items + 1);
    *place = p->made - 1;
    return true;
}

/* ---- 34 is before 35: a branch that leaves the code stands before the breaking syllable */

static bool spoil_after_target(struct segment *seg, unsigned which, uint64_t *place)
{
    (void)which;
    struct program *p = &seg->program;
    unsigned at = chance_point(p, EMPTY);
    if (p->branches == 0 || p->branch[0].at >= at || p->made > 1000)
        return false;
    p->syllable[p->branch[0].literal] = LITC(1023);
    begin_row();
    if (!make_part(seg, UNBUILT) || !insert_row(p, at))
        return false;
    *place = at;
    return true;
}

/* ---- the list */

static void add(const char *name, spoil *how, unsigned which)
{
    add_clause(34, name, how, which)->of_code = true;
}

void list_shape_clauses(void)
{
    for (unsigned i = 0; i < USES * (TWOS + ONES); i++) {
        unsigned operator = i / USES;
        const char *name = operator < TWOS ? twos[operator].name : ones[operator - TWOS].name;
        char text[60];
        snprintf(text, sizeof text, use_names[i % USES], name);
        add(text, spoil_result, i);
    }
    for (unsigned i = 0; i < COUNT(growing); i++)
        add(growing[i].name, spoil_room, i);
    add("d 0", spoil_no_room, 0);
    for (unsigned i = 0; i < COUNT(ends); i++)
        add(ends[i].name, spoil_end, i);
    add("after a branch out of the code", spoil_after_target, 0);
}
