/* Where code, stack, table and arrays stand in core, and every word of it. */
#include "layout.h"
#include "../../maker/chance.h"

enum { CODE, STACK, TABLE, STORE, AREAS };

static struct {
    unsigned first, words;
} area[AREAS];

/* ---- places */

/* To this place in the order, if one is wished there. */
static void move_area(unsigned order[AREAS], enum area wanted, unsigned to)
{
    for (unsigned i = 0; i < AREAS; i++)
        if (order[i] + 1 == (unsigned)wanted) {
            unsigned x = order[to];
            order[to] = order[i];
            order[i] = x;
            return;
        }
}

static void chance_order(unsigned order[AREAS], const struct wish *wish)
{
    for (unsigned i = 0; i < AREAS; i++)
        order[i] = i;
    for (unsigned i = AREAS - 1; i > 0; i--) {
        unsigned j = below(i + 1), x = order[i];
        order[i] = order[j];
        order[j] = x;
    }
    move_area(order, wish->first, 0);
    move_area(order, wish->last, AREAS - 1);
}

static unsigned chance_gap(const struct wish *wish)
{
    if (one_in(2))
        return 0;
    return one_in(16) && !wish->small ? below(20000) : below(6);
}

/* From `at` on, if it can be: the table begins at a multiple of 64, and S is before the stack. */
static unsigned placed(unsigned which, unsigned at)
{
    if (which == TABLE)
        at = (at + 63) / 64 * 64;
    if (which == STACK && at == 0)
        at = 1;
    area[which].first = at;
    return at + area[which].words;
}

/* The last one ends with the full core, which the table can only in whole pages. */
static void move_to_end(unsigned which)
{
    unsigned first = MOST - area[which].words;
    if (which != TABLE || first % 64 == 0)
        area[which].first = first;
}

static bool place_areas(struct segment *seg, const struct wish *wish)
{
    unsigned order[AREAS], at = 0;
    chance_order(order, wish);
    bool full = wish->last != NO_AREA;
    for (unsigned i = 0; i < AREAS; i++) {
        if (i != 0 || wish->first == NO_AREA)
            at += chance_gap(wish);
        at = placed(order[i], at);
    }
    if (at > MOST)
        return false;
    if (full)
        move_to_end(order[AREAS - 1]);
    unsigned gap = chance_gap(wish);
    seg->st.length = full || at + gap > MOST ? MOST : at + gap;
    return true;
}

/* ---- the sheet */

static void add_record(struct segment *seg, unsigned kind, unsigned first, unsigned count)
{
    seg->record[seg->records++] = (struct record){kind, 0, first, count};
}

/* Cells of one kind beside each other may stand in one record or in many. */
static void make_records(struct segment *seg, bool most)
{
    uint64_t split = most || one_in(8) ? 1 : 4;
    seg->records = 0;
    add_record(seg, 1, area[CODE].first, area[CODE].words);
    add_record(seg, 2, area[STACK].first - 1, area[STACK].words);
    add_record(seg, 5, area[TABLE].first / 64, seg->table);
    for (unsigned cell = 0; cell < seg->table; cell++) {
        unsigned kind = seg->kind[cell];
        if (kind == CLOSED_CELL)
            continue;
        if (cell != 0 && seg->kind[cell - 1] == kind && !one_in(split))
            seg->record[seg->records - 1].count++;
        else
            add_record(seg, kind, cell, 1);
    }
    seg->sheet_length = 6 * seg->records;
}

void write_sheet(struct segment *seg)
{
    for (unsigned i = 0; i < seg->records; i++) {
        const struct record *r = &seg->record[i];
        const unsigned bytes[6] = {r->kind, r->zero, r->first >> 8, r->first & 255, r->count >> 8,
                                   r->count & 255};
        for (unsigned j = 0; j < 6; j++)
            seg->sheet[6 * i + j] = (uint8_t)bytes[j];
    }
    for (size_t i = 6 * seg->records; i < seg->sheet_length; i++)
        seg->sheet[i] = (uint8_t)chance(256);
}

/* ---- the words */

static uint64_t chance_number(bool wild)
{
    uint64_t sign = one_in(4) ? ON(1) : 0;
    if (wild && one_in(12))
        return sign | (one_in(2) ? LARGEST - chance(3) : chance(ON(1)));
    return sign | (one_in(4) ? chance(1024) : chance(12));
}

static uint64_t chance_any(void) { return chance(UINT64_C(1) << 48); }

/* Fields that the paper does not name are free. */
static uint64_t chance_descriptor(unsigned size, uint64_t address)
{
    uint64_t rest = one_in(4) ? chance(32) << 40 | chance(MOST) << 15 : 0;
    return ON(0) | ON(2) | rest | (uint64_t)size << 30 | address;
}

static uint64_t chance_area(const struct segment *seg, unsigned size)
{
    unsigned spare = seg->store_words - size;
    return seg->store_first + (one_in(3) ? 0 : one_in(3) ? spare : below(spare + 1));
}

static void fill_core(struct segment *seg)
{
    uint64_t *core = seg->st.core;
    const struct program *p = &seg->program;
    for (size_t i = 0; i < seg->st.length; i++)
        core[i] = chance_any();
    for (unsigned i = 0; i < p->made; i++) {
        uint64_t *word = &core[area[CODE].first + i / 4];
        *word = (*word << 12 | p->syllable[i]) % (UINT64_C(1) << 48);
    }
    for (unsigned i = 0; i < seg->store_words; i++)
        core[seg->store_first + i] = chance_number(p->wild);
    for (unsigned cell = 0; cell < seg->table; cell++) {
        uint64_t *word = &core[area[TABLE].first + cell];
        if (seg->kind[cell] == NUMBER_CELL)
            *word = chance_number(p->wild);
        if (seg->kind[cell] == ARRAY_CELL)
            *word = chance_descriptor(seg->size[cell], chance_area(seg, seg->size[cell]));
    }
}

static unsigned largest_array(const struct segment *seg)
{
    unsigned largest = 0;
    for (unsigned i = 0; i < seg->arrays.count; i++) {
        unsigned size = seg->size[seg->arrays.cell[i]];
        largest = size > largest ? size : largest;
    }
    return largest;
}

bool make_layout(struct segment *seg, const struct wish *wish)
{
    unsigned largest = largest_array(seg);
    area[CODE].words = seg->program.made / 4;
    area[STACK].words = seg->room;
    area[TABLE].words = seg->table;
    area[STORE].words = largest + (largest != 0 ? below(12) : 0);
    if (!place_areas(seg, wish))
        return false;
    seg->store_first = area[STORE].first;
    seg->store_words = area[STORE].words;
    seg->core_length = WORD * seg->st.length;
    make_records(seg, wish->most_records);
    fill_core(seg);
    /* "Start: C first code word, L, F 0, A, B empty, SALF, MSFF off." */
    seg->st.g = (struct second_registers){
        .C = area[CODE].first, .S = area[STACK].first - 1, .R = area[TABLE].first / 64};
    return true;
}
