/* Broken clauses of 33: number cells and array cells that are unfit. */
#include "clauses.h"
#include "../../maker/chance.h"
#include "../making/cells.h"
#include "damage.h"

enum { TRIES = 40 };

static uint64_t *cell_word(struct segment *seg, unsigned cell)
{
    return &seg->st.core[64 * seg->record[2].first + cell];
}

static unsigned address_in(uint64_t word) { return (unsigned)(word & 077777); }
static unsigned size_in(uint64_t word) { return (unsigned)(word >> 30 & 01777); }

/* The area of each record: code, stack, table. */
static bool in_area(const struct segment *seg, unsigned area, unsigned at)
{
    const struct record *r = &seg->record[area];
    unsigned first = area == 0 ? r->first : area == 1 ? r->first + 1 : 64 * r->first;
    return at >= first && at < first + r->count;
}

enum { NO_AREA_OF_THREE = 3 };

/* Whether each word of a stretch could be an array's but for the one area; flags are put off. */
static bool clear_stretch(struct segment *seg, unsigned first, unsigned size, unsigned area)
{
    for (unsigned at = first; at < first + size; at++) {
        for (unsigned other = 0; other < 3; other++)
            if (other != area && in_area(seg, other, at))
                return false;
        /* The words of code and table are not to be changed. */
        if ((area == 0 || area == 2) && in_area(seg, area, at)) {
            if (seg->st.core[at] & ON(0))
                return false;
        } else {
            seg->st.core[at] &= ~ON(0);
        }
    }
    return true;
}

/* An array that meets one of the three, often in one word of it, and has no other fault. */
static bool meet_area(struct segment *seg, unsigned cell, unsigned area)
{
    const struct record *r = &seg->record[area];
    unsigned first = area == 0 ? r->first : area == 1 ? r->first + 1 : 64 * r->first;
    for (unsigned tries = 0; tries < TRIES && r->count != 0; tries++) {
        unsigned size = 1 + below(5), at = first + below(r->count);
        if (one_in(3))
            at = one_in(2) ? first + r->count - 1 : first < size ? 0 : first + 1 - size;
        if (at + size > seg->st.length || !clear_stretch(seg, at, size, area))
            continue;
        *cell_word(seg, cell) = ON(0) | ON(2) | (uint64_t)size << 30 | at;
        return true;
    }
    return false;
}

/* A word of an array gets its flag; the place is the lowest cell that names it. */
static uint64_t flag_word(struct segment *seg, unsigned cell, unsigned which_word)
{
    uint64_t word = *cell_word(seg, cell);
    unsigned last = size_in(word) - 1;
    unsigned at = address_in(word) + (which_word == 0 ? 0 : which_word == 1 ? last : below(last + 1));
    seg->st.core[at] |= ON(0);
    for (unsigned lowest = 0; lowest < cell; lowest++) {
        uint64_t other = *cell_word(seg, lowest);
        if (seg->kind[lowest] == ARRAY_CELL && at >= address_in(other) &&
            at < address_in(other) + size_in(other))
            return lowest;
    }
    return cell;
}

enum fault {
    NUMBER_FLAG, ARRAY_OPERAND, ARRAY_ABSENT, ARRAY_PROGRAM, ARRAY_CONTROL, ARRAY_EMPTY, ARRAY_PAST,
    ARRAY_FAR, ARRAY_AROUND, ARRAY_ON_CODE, ARRAY_ON_STACK, ARRAY_ON_TABLE, FLAG_FIRST, FLAG_LAST, FLAG_ANY, TWO_CELLS,
    FAULTS
};

/* One word past the core. */
static bool past_core(struct segment *seg, uint64_t *word)
{
    unsigned size = 1 + below(one_in(2) ? 1023 : 5), length = (unsigned)seg->st.length;
    if (size > length || length + 1 - size == MOST)
        return false;
    if (!clear_stretch(seg, length + 1 - size, size - 1, NO_AREA_OF_THREE))
        return false;
    *word = ON(0) | ON(2) | (uint64_t)size << 30 | (length + 1 - size);
    return true;
}

static bool spoil_cell(struct segment *seg, unsigned which, uint64_t *place)
{
    bool number = which == NUMBER_FLAG;
    if (!number && seg->arrays.count == 0)
        return false;
    unsigned cell = any_of(number ? &seg->numbers : &seg->arrays), length = (unsigned)seg->st.length;
    uint64_t *word = cell_word(seg, cell);
    *place = cell;
    switch ((enum fault)which) {
    case NUMBER_FLAG: *word = one_in(2) ? *word | ON(0) : ON(0) | chance(ON(0)); break;
    case ARRAY_OPERAND: *word &= ~ON(0); break;
    case ARRAY_ABSENT: *word &= ~ON(2); break;
    case ARRAY_PROGRAM: *word |= ON(1) | ON(3); break;
    case ARRAY_CONTROL: *word = (*word | ON(1)) & ~ON(3); break;
    case ARRAY_EMPTY: *word &= ~((uint64_t)01777 << 30); break;
    case ARRAY_PAST: return past_core(seg, word);
    case ARRAY_FAR:
        if (length == MOST)
            return false;
        *word = (*word & ~(uint64_t)077777) | (length + below(MOST - length));
        break;
    case ARRAY_AROUND:
        *word = ON(0) | ON(2) | (uint64_t)(4 + below(5)) << 30 | (MOST - 1 - below(3));
        break;
    case ARRAY_ON_CODE: return meet_area(seg, cell, 0);
    case ARRAY_ON_STACK: return meet_area(seg, cell, 1);
    case ARRAY_ON_TABLE: return meet_area(seg, cell, 2);
    case FLAG_FIRST: case FLAG_LAST: case FLAG_ANY: *place = flag_word(seg, cell, which - FLAG_FIRST); break;
    case TWO_CELLS: {
        unsigned other = any_of(&seg->numbers);
        *word ^= one_in(2) ? ON(0) : ON(2);
        *cell_word(seg, other) |= ON(0);
        *place = cell < other ? cell : other;
        break;
    }
    case FAULTS: break;
    }
    return true;
}

void list_cell_clauses(void)
{
    static const char *const names[FAULTS] = {
        "a number cell with its flag on", "an array cell with an operand", "an array that is not present",
        "an array cell with a program descriptor", "an array cell with a control word",
        "an array of size 0", "an array past core by one word", "an array beyond core", "an array past word 32,767",
        "an array meets code", "an array meets stack", "an array meets table",
        "the first word of an array with its flag on", "the last word of an array with its flag on",
        "a word of an array with its flag on", "two cells unfit, the lowest"};
    for (unsigned i = 0; i < FAULTS; i++)
        add_clause(33, names[i], spoil_cell, i);
}
