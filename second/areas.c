/* Areas and cells of the sheet (32, 33), written from paper 01 alone. */
#include "sheet.h"

static bool in_core(struct stretch x, uint64_t length)
{
    return x.first + x.count <= length;
}

/* No words meet nothing. */
static bool meet(struct stretch x, struct stretch y)
{
    return x.count != 0 && y.count != 0 && x.first < y.first + y.count &&
           y.first < x.first + x.count;
}

/* "32, code, stack words S+1 to S+d or table outside core (S+d must be below core
   length), or two of them meeting; place, the lowest record outside or meeting an
   earlier one." */
int second_inspect_areas(size_t length, const struct sheet *sheet, uint64_t *place)
{
    struct stretch code = sheet->code, stack = sheet->stack, table = sheet->table;
    if (!in_core(code, length))
        *place = 0;
    else if (!in_core(stack, length) || meet(stack, code))
        *place = 1;
    else if (!in_core(table, length) || meet(table, code) || meet(table, stack))
        *place = 2;
    else
        return SECOND_WENT_ON;
    return SECOND_BAD_AREA;
}

static bool all_unflagged(const uint64_t *core, struct stretch x)
{
    uint64_t any = 0;
    for (uint64_t i = x.first; i < x.first + x.count; i++)
        any |= core[i];
    return !flagged(any);
}

/* "an array cell holds a present data descriptor, size over 0, area in core, meeting
   none of those three, all its words flag off" */
static bool good_array(const uint64_t *core, size_t length, const struct sheet *sheet,
                       uint64_t word)
{
    struct stretch area = {address_of(word), size_of(word)};
    return is_data(word) && (word & PRESENCE) != 0 && area.count != 0 &&
           in_core(area, length) && !meet(area, sheet->code) && !meet(area, sheet->stack) &&
           !meet(area, sheet->table) && all_unflagged(core, area);
}

/* "33, lowest named cell unfit: a number cell has its flag off" */
int second_inspect_cells(const uint64_t *core, size_t length, const struct sheet *sheet,
                         uint64_t *place)
{
    for (uint64_t cell = 0; cell < sheet->table.count; cell++) {
        uint64_t word = core[sheet->table.first + cell];
        uint8_t kind = sheet->cell[cell];
        if ((kind == NUMBER_CELL && flagged(word)) ||
            (kind == ARRAY_CELL && !good_array(core, length, sheet, word))) {
            *place = cell;
            return SECOND_BAD_CELL;
        }
    }
    return SECOND_WENT_ON;
}
