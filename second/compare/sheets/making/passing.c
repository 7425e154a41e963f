/* Segments that pass: cells, code, room and layout. */
#include "passing.h"
#include "../../maker/chance.h"
#include "cells.h"
#include "layout.h"
#include "program.h"

/* Most cores are small; the others have an area at the end of the full core, or wide gaps. */
struct wish any_wish(void)
{
    struct wish wish = {.cell_9 = one_in(6) ? CLOSED_CELL : NUMBER_CELL, .small = !one_in(12)};
    if (one_in(4))
        wish.first = (enum area)(CODE_AREA + chance(4));
    if (wish.small)
        return wish;
    wish.longest = one_in(20);
    wish.most_records = one_in(10);
    if (one_in(4))
        wish.last = (enum area)(CODE_AREA + chance(4));
    wish.first = wish.first != wish.last ? wish.first : NO_AREA;
    if (wish.last == CODE_AREA)
        wish.cell_9 = NUMBER_CELL;
    return wish;
}

void make_code(struct segment *seg, const struct wish *wish)
{
    make_cells(seg, wish);
    make_body(seg, wish->longest);
    /* A branch in syllable 131,071 is never good. */
    bool communicates = seg->kind[9] == NUMBER_CELL && (wish->last == CODE_AREA || one_in(2));
    make_end(seg, communicates, wish->longest);
    unsigned least = seg->program.deepest;
    seg->room = one_in(2) ? least : one_in(100) ? 1023 : least + below(8);
}

void make_segment(struct segment *seg, const struct wish *wish)
{
    do
        make_code(seg, wish);
    while (!make_layout(seg, wish));
    write_sheet(seg);
}
