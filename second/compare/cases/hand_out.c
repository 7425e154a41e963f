/* The words that an array cell names, handed out by both. */
#include "cases.h"
#include "../machine/plant.h"
#include "../machine/state.h"
#include "../maker/chance.h"
#include "../maker/states.h"

#include <stdio.h>
#include <string.h>

/* Why a hand-out is refused, or just not. */
enum way {
    CORE_BROKEN, CORE_NONE, CORE_LONG, R_RANGE, CELL_RANGE,
    CELL_OUTSIDE, OPERAND, PROGRAM, CONTROL, ABSENT, SIZE_0, PAST_BY_ONE, FAR_PAST, AROUND, LAST_CELL, FITS_AT_END,
    FITS, ANY, WAYS
};
static const struct {
    const char *name;
    uint64_t number;
} ways[WAYS] = {
    {"core bytes no multiple of 6", 4}, {"core of no words", 1}, {"core over 32,768 words", 1},
    {"R over 511", 3}, {"cell over 1,023", 3}, {"the cell outside core", 36}, {"an operand", 36},
    {"a program descriptor", 36}, {"a control word", 36}, {"not present", 36}, {"size 0", 36},
    {"past core by one word", 36}, {"beyond core", 36}, {"past word 32,767", 36}, {"the cell in the last word", 0},
    {"up to the last word", 0}, {"in core", 0}, {"any word", 0}};
static uint64_t reached[WAYS];

static struct state st;
static uint8_t core[WORD * (MOST + 2)];
static size_t core_length;
static uint64_t r, cell;

static uint64_t out_of_range(uint64_t limit)
{
    return chance(2) ? limit : limit + chance(UINT64_MAX - limit);
}

static uint64_t descriptor(uint64_t size, uint64_t address)
{
    uint64_t rest = chance(2) ? chance(32) << 40 | chance(MOST) << 15 : 0;
    return ON(0) | ON(2) | rest | size << 30 | address;
}

/* A core that is large enough for every way, with a cell in it. */
static void chance_cell(void)
{
    do
        chance_state(&st);
    while (st.length < 8);
    core_length = WORD * st.length;
    uint64_t at = chance(st.length), lowest = at < 1024 ? 0 : (at - 1023 + 63) / 64;
    r = lowest + chance(at / 64 + 1 - lowest);
    cell = at - 64 * r;
}

static bool make_way(enum way way)
{
    chance_cell();
    uint64_t *word = &st.core[64 * r + cell], most = st.length < 1023 ? st.length : 1023;
    uint64_t size = chance(3) ? 1 + chance(most < 6 ? most : 6) : 1 + chance(most);
    *word = descriptor(size, chance(st.length + 1 - size));
    switch (way) {
    case CORE_BROKEN: core_length += 1 + chance(5); break;
    case CORE_NONE: core_length = 0; break;
    case CORE_LONG: core_length = WORD * (MOST + 1); break;
    case R_RANGE: r = out_of_range(512); break;
    case CELL_RANGE: cell = out_of_range(1024); break;
    case CELL_OUTSIDE:
        r = chance(512);
        cell = 64 * r < st.length ? st.length - 64 * r : chance(1024);
        return cell < 1024;
    case OPERAND: *word &= ~ON(0); break;
    case PROGRAM: *word |= ON(1) | ON(3); break;
    case CONTROL: *word = (*word | ON(1)) & ~ON(3); break;
    case ABSENT: *word &= ~ON(2); break;
    case SIZE_0: *word &= ~((uint64_t)01777 << 30); break;
    case PAST_BY_ONE:
        if (st.length + 1 - size == MOST)
            return false;
        *word = descriptor(size, st.length + 1 - size);
        break;
    case FAR_PAST:
        if (st.length == MOST)
            return false;
        *word = descriptor(size, st.length + chance(MOST - st.length));
        break;
    case AROUND: *word = descriptor(4 + chance(5), MOST - 1 - chance(3)); break;
    case LAST_CELL:
        r = (st.length - 1) / 64;
        cell = st.length - 1 - 64 * r;
        st.core[st.length - 1] = descriptor(size, 0);
        break;
    case FITS_AT_END: *word = descriptor(size, st.length - size); break;
    case ANY: *word = st.core[chance(st.length)]; break;
    case FITS: case WAYS: break;
    }
    return true;
}

static unsigned failed(uint64_t i, const char *what, uint64_t ours, uint64_t expected)
{
    printf("compare: difference: hand-out case %llu: %s %llu, expected %llu\n", (unsigned long long)i, what,
           (unsigned long long)ours, (unsigned long long)expected);
    return 1;
}

/* Bytes that are no whole words are refused before the second machine is asked (4). */
static uint64_t second_bounds(size_t *first, size_t *words)
{
    *first = *words = 0;
    if (core_length % WORD != 0)
        return FIFTY_FIVE_FILE_LENGTH;
    return (uint64_t)second_hand_out(st.core, core_length / WORD, r, cell, first, words);
}

unsigned group_hand_out(uint64_t count)
{
    enum { MARK = 0xBEEF };
    unsigned failures = 0;
    for (uint64_t i = 0; i < count; i++) {
        enum way way = (enum way)(i % WAYS);
        while (!make_way(way)) {
        }
        size_t first, words;
        uint64_t start = MARK, length = MARK;
        /* The word after the core would serve, if it were of the core. */
        const uint64_t after = descriptor(1, 0);
        words_to_bytes(st.core, st.length, core);
        words_to_bytes(&after, 1, core + WORD * st.length);
        uint64_t number = fifty_five_hand_out(core, core_length, r, cell, &start, &length);
        uint64_t second = second_bounds(&first, &words);
        if (planted(PLANT_BOUNDS))
            length++;
        if (number != second)
            failures += failed(i, "number", number, second);
        else if (start != first || length != words)
            failures += failed(i, "bounds", start != first ? start : length, start != first ? first : words);
        else if (way != ANY && number != ways[way].number)
            failures += failed(i, ways[way].name, number, ways[way].number);
        else
            reached[way]++;
    }
    for (unsigned i = 0; i < WAYS; i++) {
        printf("hand-out %llu: %-40s%8llu\n", (unsigned long long)ways[i].number, ways[i].name,
               (unsigned long long)reached[i]);
        if (reached[i] == 0)
            failures += failed(i, "a way that was never met:", 0, ways[i].number);
    }
    return failures;
}
