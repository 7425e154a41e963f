/* Reading the sheet (30, 31), written from paper 01 alone. */
#include "sheet.h"

/* "kind, 0, first (2 bytes), count (2 bytes), highest byte first" */
struct record {
    uint8_t kind, zero;
    uint64_t first, count;
};

static struct record record_at(const uint8_t *bytes, uint64_t number)
{
    const uint8_t *b = bytes + RECORD * number;
    return (struct record){
        .kind = b[0],
        .zero = b[1],
        .first = (uint64_t)b[2] << 8 | b[3],
        .count = (uint64_t)b[4] << 8 | b[5],
    };
}

static bool good(struct record r, enum kind kind, uint64_t top, uint64_t least, uint64_t most)
{
    return r.kind == kind && r.zero == 0 && r.first <= top && r.count >= least &&
           r.count <= most;
}

/* "first cell, count over 0, within the table, rising, not overlapping" */
static bool good_cells(struct record r, uint64_t least, uint64_t table_length)
{
    return (r.kind == NUMBER_CELL || r.kind == ARRAY_CELL) && r.zero == 0 && r.count != 0 &&
           r.first >= least && r.first + r.count <= table_length;
}

/* The first three records; answers the first bad one, or 3. */
static uint64_t read_areas(const uint8_t *bytes, struct sheet *sheet)
{
    struct record code = record_at(bytes, 0);
    struct record stack = record_at(bytes, 1);
    struct record table = record_at(bytes, 2);
    /* "kind 1, code words, count 1 to 1,024" */
    if (!good(code, CODE, 32767, 1, CODE_LIMIT))
        return 0;
    /* "kind 2, starting S and room d, 0 to 1,023" */
    if (!good(stack, STACK, 32767, 0, 1023))
        return 1;
    /* "kind 5, R and table length, 64 to 1,024 ... R at most 511" */
    if (!good(table, TABLE, 511, 64, TABLE_LIMIT))
        return 2;
    sheet->code = (struct stretch){code.first, code.count};
    /* "stack words S+1 to S+d" */
    sheet->stack = (struct stretch){stack.first + 1, stack.count};
    sheet->table = (struct stretch){64 * table.first, table.count};
    return 3;
}

/* The cell records; answers the first bad one, or the number of records. */
static uint64_t read_cells(const uint8_t *bytes, uint64_t records, struct sheet *sheet)
{
    uint64_t least = 0;
    for (uint64_t i = 3; i < records; i++) {
        struct record r = record_at(bytes, i);
        if (!good_cells(r, least, sheet->table.count))
            return i;
        least = r.first + r.count;
        for (uint64_t cell = r.first; cell < least; cell++)
            sheet->cell[cell] = r.kind;
    }
    return records;
}

/* "30, length not 6 times 3 to 1,027. 31, first bad record." */
int second_read_sheet(const uint8_t *bytes, size_t n, struct sheet *sheet, uint64_t *place)
{
    uint64_t records = n / RECORD;
    if (n % RECORD != 0 || records < 3 || records > 1027)
        return SECOND_SHEET_LENGTH;
    uint64_t bad = read_areas(bytes, sheet);
    if (bad == 3)
        bad = read_cells(bytes, records, sheet);
    if (bad == records)
        return SECOND_WENT_ON;
    *place = bad;
    return SECOND_BAD_RECORD;
}
