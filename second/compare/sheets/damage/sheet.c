/* Broken clauses of 4, 1, 30 and 31: lengths and records. */
#include "clauses.h"
#include "../../maker/chance.h"
#include "damage.h"

/* ---- lengths */

enum length { BROKEN, BROKEN_LONG, NO_WORDS, MANY_WORDS, NO_RECORDS, FEW_RECORDS, MANY_RECORDS, PART_RECORD };

static bool spoil_length(struct segment *seg, unsigned which, uint64_t *place)
{
    *place = 0;
    switch ((enum length)which) {
    case BROKEN: seg->core_length += 1 + chance(5); break;
    case BROKEN_LONG: seg->core_length = WORD * (MOST + 1) + 1 + chance(5); break;
    case NO_WORDS: seg->core_length = 0; break;
    case MANY_WORDS: seg->core_length = WORD * (MOST + 1 + (size_t)chance(2)); break;
    case NO_RECORDS: seg->sheet_length = 0; break;
    case FEW_RECORDS: seg->sheet_length = 6 * (1 + (size_t)chance(2)); break;
    case MANY_RECORDS: seg->sheet_length = 6 * (MOST_RECORDS + 1 + (one_in(2) ? 0 : (size_t)chance(60))); break;
    case PART_RECORD: seg->sheet_length += 1 + chance(5); break;
    }
    return true;
}

/* ---- records */

static unsigned over(unsigned limit)
{
    return one_in(2) ? limit + 1 : limit + 1 + below(65535 - limit);
}

static unsigned other_kind(unsigned kind)
{
    unsigned other = one_in(3) ? below(256) : below(7);
    return other != kind ? other : kind + 8;
}

enum area_fault { AREA_KIND, AREA_ZERO, AREA_FIRST, AREA_MANY, AREA_FEW, AREA_FAULTS };

/* The first three records: kinds, the greatest first, the least and the greatest count. */
static bool spoil_area(struct segment *seg, unsigned which, uint64_t *place)
{
    static const struct {
        unsigned kind, first, least, most;
    } good[3] = {{1, 32767, 1, 1024}, {2, 32767, 0, 1023}, {5, 511, 64, 1024}};
    unsigned i = which / AREA_FAULTS;
    struct record *r = &seg->record[i];
    *place = i;
    switch ((enum area_fault)(which % AREA_FAULTS)) {
    case AREA_KIND: r->kind = other_kind(good[i].kind); break;
    case AREA_ZERO: r->zero = 1 + below(255); break;
    case AREA_FIRST: r->first = over(good[i].first); break;
    case AREA_MANY: r->count = over(good[i].most); break;
    case AREA_FEW: r->count = one_in(2) ? good[i].least - 1 : below(good[i].least); break;
    case AREA_FAULTS: break;
    }
    return true;
}

enum cell {
    CELL_KIND, CELL_ZERO, CELL_NONE, CELL_MANY, CELL_FIRST, CELL_WRAPS, CELL_FALLING, CELL_MEETS,
    CELL_FAULTS
};

/* The records of cells; those that fall or meet need one before them. */
static bool spoil_cells(struct segment *seg, unsigned which, uint64_t *place)
{
    unsigned least = which == CELL_FALLING || which == CELL_MEETS ? 4 : 3;
    if (seg->records <= least)
        return false;
    unsigned i = one_in(4) ? seg->records - 1 : least + below(seg->records - least);
    struct record *r = &seg->record[i];
    const struct record *last = &seg->record[i - 1];
    *place = i;
    switch ((enum cell)which) {
    case CELL_KIND: r->kind = one_in(2) ? 1 + 4 * below(2) : one_in(2) ? 2 : one_in(2) ? 0 : 5 + below(251); break;
    case CELL_ZERO: r->zero = 1 + below(255); break;
    case CELL_NONE: r->count = 0; break;
    case CELL_MANY: r->count = over(seg->table - r->first); break;
    case CELL_FIRST: r->first = over(seg->table - 1); break;
    case CELL_WRAPS:
        r->first = 65535 - below(4);
        r->count = 65536 - r->first + below(60);
        break;
    case CELL_FALLING:
        if (last->first == 0)
            return false;
        r->first = below(last->first);
        r->count = 1 + below(last->first - r->first);
        break;
    case CELL_MEETS:
        r->first = last->first + (one_in(2) ? last->count - 1 : below(last->count));
        r->count = 1 + below(seg->table - r->first);
        break;
    case CELL_FAULTS: break;
    }
    return true;
}

/* Two bad records: the first is meant. */
static bool spoil_two(struct segment *seg, unsigned which, uint64_t *place)
{
    (void)which;
    unsigned i = below(seg->records), j = below(seg->records);
    if (i == j)
        return false;
    seg->record[i].zero = 1;
    seg->record[j].zero = 1;
    *place = i < j ? i : j;
    return true;
}

void list_sheet_clauses(void)
{
    add_clause(4, "bytes no multiple of 6", spoil_length, BROKEN);
    add_clause(4, "before 1", spoil_length, BROKEN_LONG);
    add_clause(1, "core of no words", spoil_length, NO_WORDS);
    add_clause(1, "core over 32,768 words", spoil_length, MANY_WORDS);
    add_clause(30, "no bytes", spoil_length, NO_RECORDS);
    add_clause(30, "fewer than 3 records", spoil_length, FEW_RECORDS);
    add_clause(30, "more than 1,027 records", spoil_length, MANY_RECORDS);
    add_clause(30, "no multiple of 6", spoil_length, PART_RECORD);
    static const char *const area_names[3 * AREA_FAULTS] = {
        "record 0, kind not 1", "record 0, second byte not 0", "record 0, first over 32,767",
        "record 0, count over 1,024", "record 0, count 0",
        "record 1, kind not 2", "record 1, second byte not 0", "record 1, S over 32,767",
        "record 1, d over 1,023", NULL,
        "record 2, kind not 5", "record 2, second byte not 0", "record 2, R over 511",
        "record 2, table over 1,024", "record 2, table below 64"};
    for (unsigned i = 0; i < 3 * AREA_FAULTS; i++)
        if (area_names[i] != NULL)
            add_clause(31, area_names[i], spoil_area, i);
    static const char *const cell_names[CELL_FAULTS] = {
        "cells, kind neither 3 nor 4", "cells, second byte not 0", "cells, count 0",
        "cells, count past the table", "cells, first past the table", "cells, past 65,535",
        "cells, not rising", "cells, overlapping"};
    for (unsigned i = 0; i < CELL_FAULTS; i++)
        add_clause(31, cell_names[i], spoil_cells, i);
    add_clause(31, "two bad records, the first", spoil_two, 0);
}
