/* The inspector, written from paper 01 alone. */
#include "checks.h"
#include "sheet.h"

/* "The answer is a number and a place; the place is 0 with 0, 1, 2 and 30 ... After 1
   and 2, in order: 30 ... 35" */
int second_inspect(const uint64_t *core, size_t length, const uint8_t *sheet, size_t n,
                   uint64_t *place)
{
    struct sheet read = {.cell = {CLOSED}};
    *place = 0;
    int number = second_check_core(core, length);
    if (number == SECOND_WENT_ON)
        number = second_read_sheet(sheet, n, &read, place);
    if (number == SECOND_WENT_ON)
        number = second_inspect_areas(length, &read, place);
    if (number == SECOND_WENT_ON)
        number = second_inspect_cells(core, length, &read, place);
    if (number == SECOND_WENT_ON)
        number = second_inspect_code(core, &read, place);
    return number;
}
