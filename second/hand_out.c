/* The hand-out of an array, written from paper 01 alone. */
#include "checks.h"
#include "words.h"

/* "36 unless the cell is in core and holds a present data descriptor of size over 0
   wholly in core." */
static bool fit(const uint64_t *core, size_t length, uint64_t at)
{
    if (at >= length)
        return false;
    uint64_t word = core[at];
    return is_data(word) && (word & PRESENCE) != 0 && size_of(word) != 0 &&
           address_of(word) + size_of(word) <= length;
}

/* "checks 1, 2, 3 (R below 512, cell below 1,024), 36, each with an empty stretch" */
int second_hand_out(const uint64_t *core, size_t length, uint64_t r, uint64_t cell,
                    size_t *start, size_t *count)
{
    *start = 0;
    *count = 0;
    int number = second_check_core(core, length);
    if (number != SECOND_WENT_ON)
        return number;
    if (r >= 512 || cell >= 1024)
        return SECOND_REGISTER;
    if (!fit(core, length, 64 * r + cell))
        return SECOND_ARRAY_UNFIT;
    *start = (size_t)address_of(core[64 * r + cell]);
    *count = (size_t)size_of(core[64 * r + cell]);
    return SECOND_WENT_ON;
}
