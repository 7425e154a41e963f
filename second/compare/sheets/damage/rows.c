/* Rows of syllables that break the scan, made for the cells of a segment and put into its code. */
#include "rows.h"
#include "../../../codes.h"
#include "../../machine/operations.h"
#include "../../maker/chance.h"
#include "../making/cells.h"
#include "../making/emit.h"

/* ---- syllables of a row */

struct program made_row;

void begin_row(void) { made_row.made = made_row.items = made_row.items_before[0] = 0; }

static bool one_cell(const struct cells *cells, unsigned *cell)
{
    if (cells->count == 0)
        return false;
    *cell = any_of(cells);
    return true;
}

static bool past_table(const struct segment *seg, unsigned *cell)
{
    if (seg->table == MOST_CELLS)
        return false;
    *cell = one_in(2) ? seg->table : seg->table + below(MOST_CELLS - seg->table);
    return true;
}

static unsigned chance_unbuilt(void)
{
    for (;;) {
        unsigned syllable = below(1024) << 2 | 1, i = 0;
        while (i < OPERATORS && operator_code(i) != syllable)
            i++;
        if (i == OPERATORS)
            return syllable;
    }
}

const struct named twos[TWOS] = {
    {"ADD", ADD}, {"SUB", SUB}, {"MUL", MUL}, {"IDV", IDV}, {"RDV", RDV}, {"GTR", GTR}, {"GEQ", GEQ},
    {"EQL", EQL}, {"LEQ", LEQ}, {"LSS", LSS}, {"NEQ", NEQ}, {"LND", LND}, {"LOR", LOR}, {"LQV", LQV}};
const struct named ones[ONES] = {{"LNG", LNG}, {"MOP", MOP}, {"SSP", SSP},
                                 {"SSN", SSN}, {"CHS", CHS}, {"TOP", TOP}};

void make_result(const struct segment *seg, unsigned code, bool two)
{
    struct program *p = &made_row;
    make_part(seg, LITERAL_OF_NUMBER);
    if (two)
        make_part(seg, LITERAL_OF_NUMBER);
    emit(p, code, two ? -1 : code == TOP ? 1 : 0);
    if (code != TOP)
        return;
    emit(p, XCH, 0);
    emit(p, DEL, -1);
}

static bool make_number(const struct segment *seg)
{
    struct program *p = &made_row;
    switch (chance(6)) {
    case 0:
        if (seg->arrays.count != 0) {
            make_part(seg, LITERAL);
            return make_part(seg, OPDC_OF_ARRAY);
        }
        break;
    case 1:
        make_part(seg, one_in(2) ? LITERAL_OF_NUMBER : PLACE);
        emit(p, LOD, 0);
        return true;
    case 2: make_result(seg, twos[chance(TWOS)].code, true); return true;
    case 3: make_result(seg, ones[chance(ONES)].code, false); return true;
    default: break;
    }
    return make_part(seg, OPDC_OF_NUMBER);
}

bool make_part(const struct segment *seg, unsigned part)
{
    unsigned cell = 0;
    struct program *p = &made_row;
    switch (part) {
    case WORD_ITEM: return make_part(seg, one_in(2) ? LITERAL : NUMBER);
    case LITERAL: emit(p, LITC(chance(1024)), 1); return true;
    case NUMBER: return make_number(seg);
    case PLACE:
        if (seg->arrays.count == 0 || one_in(2))
            return make_part(seg, DESC_OF_NUMBER);
        emit(p, LITC(0), 1);
        emit(p, DESC(any_of(&seg->arrays)), 0);
        return true;
    case LITERAL_OF_NUMBER: emit(p, LITC(any_of(&seg->numbers)), 1); return true;
    case LITERAL_OF_ARRAY:
        if (!one_cell(&seg->arrays, &cell))
            return false;
        emit(p, LITC(cell), 1);
        return true;
    case LITERAL_OF_CLOSED:
        if (!one_cell(&seg->closed, &cell))
            return false;
        emit(p, LITC(cell), 1);
        return true;
    case LITERAL_PAST_TABLE:
        if (!past_table(seg, &cell))
            return false;
        emit(p, LITC(cell), 1);
        return true;
    case OPDC_OF_NUMBER: emit(p, OPDC(any_of(&seg->numbers)), 1); return true;
    case DESC_OF_NUMBER: emit(p, DESC(any_of(&seg->numbers)), 1); return true;
    case OPDC_OF_ARRAY: case DESC_OF_ARRAY:
        if (!one_cell(&seg->arrays, &cell))
            return false;
        emit(p, part == OPDC_OF_ARRAY ? OPDC(cell) : DESC(cell), 0);
        return true;
    case OPDC_OF_CLOSED: case DESC_OF_CLOSED:
        if (!one_cell(&seg->closed, &cell))
            return false;
        emit(p, part == OPDC_OF_CLOSED ? OPDC(cell) : DESC(cell), 1);
        return true;
    case OPDC_PAST_TABLE: case DESC_PAST_TABLE:
        if (!past_table(seg, &cell))
            return false;
        emit(p, part == OPDC_PAST_TABLE ? OPDC(cell) : DESC(cell), 1);
        return true;
    case UNBUILT: emit(p, chance_unbuilt(), 0); return true;
    default: emit(p, part, part == TOP ? 1 : part == SND ? -1 : 0); return true;
    }
}

bool make_row(const struct segment *seg, const unsigned part[ROW_ROOM], unsigned *items)
{
    begin_row();
    for (unsigned i = 0; i < ROW_ROOM && part[i] != 0; i++)
        if (!make_part(seg, part[i]))
            return false;
    *items = 0;
    for (unsigned i = 0; i < made_row.made; i++)
        *items = made_row.items_before[i] > *items ? made_row.items_before[i] : *items;
    return true;
}

/* ---- a row in good code */

unsigned chance_point(const struct program *p, enum where where)
{
    unsigned at = one_in(8) ? 0 : one_in(8) ? p->made - 1 : below(p->made);
    while (where == EMPTY && p->items_before[at] != 0)
        at--;
    return at;
}

bool insert_row(struct program *p, unsigned at)
{
    const struct program *row = &made_row;
    if (at + row->made > MOST_SYLLABLES)
        return false;
    unsigned made = p->made + row->made;
    made = made < MOST_SYLLABLES ? made : MOST_SYLLABLES;
    for (unsigned i = made; i > at + row->made; i--)
        p->syllable[i - 1] = p->syllable[i - 1 - row->made];
    for (unsigned i = 0; i < row->made; i++)
        p->syllable[at + i] = row->syllable[i];
    while (made % 4 != 0)
        p->syllable[made++] = below(4096);
    p->made = made;
    return true;
}

void need_room(struct segment *seg, unsigned items)
{
    if (seg->room < items)
        seg->room = items;
}

bool put_row(struct segment *seg, const struct row *row, uint64_t *place)
{
    struct program *p = &seg->program;
    unsigned at = chance_point(p, row->where), items;
    if (!make_row(seg, row->part, &items) || !insert_row(p, at))
        return false;
    need_room(seg, p->items_before[at] + items + 1);
    *place = at + made_row.made - 1;
    return true;
}
