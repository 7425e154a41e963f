/* The sheet as the inspector uses it, written from paper 01 alone. */
#ifndef SECOND_SHEET_H
#define SECOND_SHEET_H

#include "fifty_five_second.h"
#include "words.h"

enum { RECORD = 6, TABLE_LIMIT = 1024, CODE_LIMIT = 1024 };

/* "Record 0: kind 1 ... Record 1: kind 2 ... Record 2: kind 5 ... Then kind 3 number
   cells or kind 4 array cells ... Other cells are closed." */
enum kind { CLOSED = 0, CODE = 1, STACK = 2, NUMBER_CELL = 3, ARRAY_CELL = 4, TABLE = 5 };

struct stretch {
    uint64_t first, count;
};

struct sheet {
    struct stretch code, stack, table; /* in words of core */
    uint8_t cell[TABLE_LIMIT];         /* the kind of each cell */
};

/* Each answers 0, or its number with the place. */
int second_read_sheet(const uint8_t *bytes, size_t n, struct sheet *sheet, uint64_t *place);
int second_inspect_areas(size_t length, const struct sheet *sheet, uint64_t *place);
int second_inspect_cells(const uint64_t *core, size_t length, const struct sheet *sheet,
                         uint64_t *place);
int second_inspect_code(const uint64_t *core, const struct sheet *sheet, uint64_t *place);

#endif
