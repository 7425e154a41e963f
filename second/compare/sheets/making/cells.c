/* The table of a segment: its length, the kind of each cell, the sizes of the arrays. */
#include "cells.h"
#include "../../maker/chance.h"

unsigned any_of(const struct cells *cells) { return cells->cell[chance(cells->count)]; }

static unsigned chance_table(const struct wish *wish)
{
    if (wish->most_records)
        return MOST_CELLS;
    if (one_in(3))
        return 64;
    return one_in(16) && !wish->small ? MOST_CELLS - below(2) : 64 + below(100);
}

static void name_cells(struct segment *seg, unsigned first, unsigned count, unsigned kind)
{
    for (unsigned cell = first; cell < first + count && cell < seg->table; cell++)
        seg->kind[cell] = kind;
}

static void add_cell(struct cells *cells, unsigned cell) { cells->cell[cells->count++] = cell; }

/* The lists by kind; the loops' counters are not cell 9, which COM writes. */
static void list_cells(struct segment *seg)
{
    seg->numbers.count = seg->arrays.count = seg->closed.count = 0;
    for (unsigned cell = 0; cell < seg->table; cell++) {
        unsigned kind = seg->kind[cell];
        add_cell(kind == NUMBER_CELL ? &seg->numbers : kind == ARRAY_CELL ? &seg->arrays : &seg->closed,
                 cell);
    }
    struct cells *numbers = &seg->numbers;
    for (unsigned i = numbers->count - 1; i > 0; i--) {
        unsigned j = below(i + 1), cell = numbers->cell[i];
        numbers->cell[i] = numbers->cell[j];
        numbers->cell[j] = cell;
    }
    seg->counters = numbers->count / 3 < 3 ? numbers->count / 3 : 3;
    for (unsigned i = 0; i < seg->counters; i++)
        if (numbers->cell[i] == 9) {
            numbers->cell[i] = numbers->cell[numbers->count - 1];
            numbers->cell[numbers->count - 1] = 9;
        }
}

static unsigned chance_size(bool small)
{
    if (one_in(60) && !small)
        return 1023 - below(2);
    return one_in(4) ? 1 : 1 + below(12);
}

void make_cells(struct segment *seg, const struct wish *wish)
{
    seg->table = chance_table(wish);
    unsigned rest = CLOSED_CELL;
    if (wish->most_records || one_in(24))
        rest = one_in(2) ? NUMBER_CELL : ARRAY_CELL;
    name_cells(seg, 0, seg->table, rest);
    for (unsigned runs = 2 + below(5); runs != 0; runs--) {
        unsigned first = below(seg->table), count = 1 + below(5);
        name_cells(seg, first, count, one_in(2) ? ARRAY_CELL : NUMBER_CELL);
    }
    if (one_in(8))
        name_cells(seg, 0, seg->table / 2, NUMBER_CELL);
    name_cells(seg, below(seg->table - 5), 6, NUMBER_CELL);
    seg->kind[9] = wish->cell_9;
    list_cells(seg);
    unsigned size = chance_size(wish->small);
    for (unsigned i = 0; i < seg->arrays.count; i++)
        seg->size[seg->arrays.cell[i]] = one_in(4) ? size : chance_size(wish->small);
}
