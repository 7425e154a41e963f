/* Malformed calls of every kind: what is refused is left as it was. */
#include "cases.h"
#include "../machine/state.h"
#include "../maker/chance.h"
#include "../maker/states.h"

#include <stdio.h>
#include <string.h>

enum { LONGEST = WORD * (MOST + 2) };

static uint8_t core[LONGEST], before[LONGEST];

static unsigned failed(uint64_t i, const char *what, uint64_t number, uint64_t expected)
{
    printf("compare: difference: malformed case %llu: %s, number %llu, expected %llu\n", (unsigned long long)i,
           what, (unsigned long long)number, (unsigned long long)expected);
    return 1;
}

/* Ways to be malformed, by the number that each must give; the first of 4, 1, 3, 5 wins. */
enum way {
    CORE_BROKEN, CORE_NONE, CORE_LONG,
    ROW_LENGTH, A_FULL, B_FULL, A_NOT_EMPTY, B_NOT_EMPTY,
    S_RANGE, F_RANGE, C_RANGE, R_RANGE, L_RANGE, SALF_RANGE, MSFF_RANGE,
    BUDGET, WAYS
};
static const char *const way_names[WAYS] = {
    "core bytes no multiple of 6", "core of no bytes", "core over 32,768 words",
    "row not of 66 bytes", "a_full", "b_full", "A empty and not 0", "B empty and not 0",
    "S", "F", "C", "R", "L", "SALF", "MSFF", "budget over 1,000,000"};
static const uint64_t way_numbers[WAYS] = {4, 1, 1, 3, 3, 3, 3, 3, 3, 3, 3, 3, 3, 3, 3, 5};
static uint64_t way_reached[WAYS];

/* At the limit, a little over it, over it by a power of 2, or any word. */
static uint64_t out_of_range(uint64_t limit)
{
    switch (chance(4)) {
    case 0: return limit;
    case 1: return limit + 1 + chance(3);
    case 2: return (UINT64_C(1) << (16 + chance(32))) + chance(limit);
    default: return limit + chance((UINT64_C(1) << 48) - limit);
    }
}

struct call {
    struct state st;
    size_t core_length, row_length;
    uint64_t budget;
};
static struct call call;

static void spoil(enum way way)
{
    struct second_registers *g = &call.st.g;
    switch (way) {
    case CORE_BROKEN: call.core_length += 1 + chance(5); break;
    case CORE_NONE: call.core_length = 0; break;
    case CORE_LONG: call.core_length = WORD * (MOST + 1); break;
    case ROW_LENGTH: call.row_length = chance(2) ? chance(66) : 67 + chance(20); break;
    case A_FULL: g->a_full = out_of_range(2); break;
    case B_FULL: g->b_full = out_of_range(2); break;
    case A_NOT_EMPTY: g->a_full = 0; g->A = 1 + chance(ON(0)); break;
    case B_NOT_EMPTY: g->b_full = 0; g->B = 1 + chance(ON(0)); break;
    case S_RANGE: g->S = out_of_range(32768); break;
    case F_RANGE: g->F = out_of_range(32768); break;
    case C_RANGE: g->C = out_of_range(32768); break;
    case R_RANGE: g->R = out_of_range(512); break;
    case L_RANGE: g->L = out_of_range(4); break;
    case SALF_RANGE: g->SALF = out_of_range(2); break;
    case MSFF_RANGE: g->MSFF = out_of_range(2); break;
    case BUDGET: call.budget = chance(2) ? 1000001 : 1000001 + chance(UINT64_MAX - 1000001); break;
    case WAYS: break;
    }
}

/* One to three ways at once, those of a core's length not together. */
static uint64_t chance_malformed(void)
{
    static const uint64_t order[] = {4, 1, 3, 5};
    bool given[6] = {false};
    chance_state(&call.st);
    if (call.st.length > 1000)
        call.st.length = 1000;
    call.core_length = WORD * call.st.length;
    call.row_length = ROW;
    call.budget = chance(20);
    bool by_length = false;
    for (uint64_t n = 1 + chance(3); n != 0; n--) {
        enum way way = (enum way)(chance(24) == 0 ? CORE_LONG : chance(WAYS));
        if (way <= CORE_LONG && by_length)
            continue;
        by_length = by_length || way <= CORE_LONG;
        spoil(way);
        given[way_numbers[way]] = true;
        way_reached[way]++;
    }
    for (unsigned i = 0; i < 4; i++)
        if (given[order[i]])
            return order[i];
    return 0;
}

unsigned group_malformed(uint64_t count)
{
    static uint8_t row[2 * ROW], row_before[2 * ROW];
    enum { MARK = 0xBEEF };
    unsigned failures = 0;
    for (uint64_t i = 0; i < count; i++) {
        uint64_t expected = chance_malformed(), completed = MARK, counted, number;
        words_to_bytes(call.st.core, call.st.length, core);
        memset(row, 0, sizeof row);
        registers_to_row(&call.st.g, row);
        memcpy(before, core, call.core_length);
        memcpy(row_before, row, sizeof row);
        bool run = expected == 5 || call.budget > 1000000 || chance(2);
        if (run)
            number = fifty_five_run(core, call.core_length, row, call.row_length, call.budget, &completed);
        else
            number = fifty_five_step(core, call.core_length, row, call.row_length);
        if (number != expected)
            failures += failed(i, "a wrong number", number, expected);
        if (memcmp(core, before, call.core_length) != 0 || memcmp(row, row_before, sizeof row) != 0)
            failures += failed(i, "a refusal has written", number, expected);
        if (run && completed != 0)
            failures += failed(i, "a refused run's count", completed, 0);
        /* Where the lengths are good the second machine is asked too. */
        if (call.core_length != WORD * call.st.length || call.row_length != ROW)
            continue;
        if (run)
            number = (uint64_t)second_run(call.st.core, call.st.length, &call.st.g, call.budget, &counted);
        else
            number = (uint64_t)second_step(call.st.core, call.st.length, &call.st.g);
        if (number != expected)
            failures += failed(i, "the second machine's number", number, expected);
    }
    for (unsigned i = 0; i < WAYS; i++) {
        printf("%-30s%8llu\n", way_names[i], (unsigned long long)way_reached[i]);
        if (way_reached[i] == 0)
            failures += failed(i, "a way that was never tried", 0, way_numbers[i]);
    }
    return failures;
}
