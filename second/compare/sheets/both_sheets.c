/* One sheet with its core on both sides: number, place, stop, count, registers and core are compared. */
#include "both_sheets.h"
#include "../machine/plant.h"
#include "../maker/chance.h"

#include <stdio.h>
#include <string.h>

enum { MARK = 0xBEEF };

/* Two words more than a core has, for the lengths that are refused. */
static uint8_t bytes[WORD * (MOST + 3) + GUARD], before[WORD * (MOST + 3) + GUARD];
static char text[200];

static void take_over(const struct segment *seg)
{
    words_to_bytes(seg->st.core, seg->st.length, bytes);
    put_guard(bytes + WORD * seg->st.length);
}

static const char *differs(const char *what, uint64_t ours, uint64_t second)
{
    if (ours == second)
        return NULL;
    snprintf(text, sizeof text, "%s %llu, second %llu", what, (unsigned long long)ours,
             (unsigned long long)second);
    return text;
}

/* Bytes that are no whole words are refused before the second machine is asked (4). */
static uint64_t second_verdict(const struct segment *seg, uint64_t *place)
{
    *place = 0;
    if (seg->core_length % WORD != 0)
        return FIFTY_FIVE_FILE_LENGTH;
    return (uint64_t)second_inspect(seg->st.core, seg->core_length / WORD, seg->sheet, seg->sheet_length, place);
}

struct inspected both_inspect(const struct segment *seg)
{
    struct inspected v = {.difference = NULL};
    uint64_t place = MARK;
    take_over(seg);
    uint64_t number = fifty_five_inspect(bytes, seg->core_length, seg->sheet, seg->sheet_length, &place);
    v.number = second_verdict(seg, &v.place);
    if (planted(PLANT_VERDICT))
        number ^= 1;
    if (planted(PLANT_PLACE))
        place ^= 1;
    v.difference = differs("inspected: number", number, v.number);
    if (v.difference == NULL)
        v.difference = differs("inspected: place", place, v.place);
    return v;
}

/* ---- post */

/* "Start: C first code word, L, F 0, A, B empty, SALF, MSFF off." */
static struct second_registers start_of(const uint8_t *sheet)
{
    uint64_t first[3];
    for (unsigned i = 0; i < 3; i++)
        first[i] = (uint64_t)sheet[6 * i + 2] << 8 | sheet[6 * i + 3];
    return (struct second_registers){.C = first[0], .S = first[1], .R = first[2]};
}

/* 4, 1, 3, 30 to 35, 5, then the run. */
static void second_post(struct segment *seg, uint64_t budget, size_t row_length, struct posted *v)
{
    v->number = second_verdict(seg, &v->place);
    if (v->number != FIFTY_FIVE_FILE_LENGTH && v->number != FIFTY_FIVE_CORE_LENGTH && row_length != ROW) {
        v->number = FIFTY_FIVE_REGISTER;
        v->place = 0;
    }
    if (v->number != 0)
        return;
    if (budget > 1000000) {
        v->number = FIFTY_FIVE_BUDGET;
        return;
    }
    seg->st.g = start_of(seg->sheet);
    v->stop = (uint64_t)second_run(seg->st.core, seg->st.length, &seg->st.g, budget, &v->completed);
}

/* What the buffers must hold now; those of a refusal are as they were. */
static const char *buffers_differ(const struct segment *seg, const uint8_t *row, uint8_t *row_before,
                                  bool ran)
{
    if (ran) {
        words_to_bytes(seg->st.core, seg->st.length, before);
        registers_to_row(&seg->st.g, row_before);
    }
    if (memcmp(row, row_before, 2 * ROW) != 0)
        return ran ? "posted: a register differs" : "posted: a refusal has written the registers";
    if (memcmp(bytes, before, WORD * seg->st.length + GUARD) != 0)
        return ran ? "posted: a word differs" : "posted: a refusal has written the core";
    return NULL;
}

struct posted both_post(struct segment *seg, uint64_t budget, size_t row_length)
{
    static uint8_t row[2 * ROW], row_before[2 * ROW];
    struct posted v = {.difference = NULL};
    uint64_t place = MARK, stop = MARK, completed = MARK;
    take_over(seg);
    /* What the row holds before is not looked at. */
    for (unsigned i = 0; i < 2 * ROW; i++)
        row[i] = row_before[i] = (uint8_t)chance(256);
    memcpy(before, bytes, WORD * seg->st.length + GUARD);
    uint64_t number = fifty_five_post(bytes, seg->core_length, seg->sheet, seg->sheet_length, budget, row,
                                      row_length, &place, &stop, &completed);
    second_post(seg, budget, row_length, &v);
    if (v.number == 0 && planted(PLANT_POST))
        bytes[WORD * seg->st.length - 1] ^= 1;
    v.difference = differs("posted: number", number, v.number);
    if (v.difference == NULL)
        v.difference = differs("posted: place", place, v.place);
    if (v.difference == NULL)
        v.difference = differs("posted: stop", stop, v.stop);
    if (v.difference == NULL)
        v.difference = differs("posted: completed", completed, v.completed);
    if (v.difference == NULL)
        v.difference = buffers_differ(seg, row, row_before, v.number == 0);
    return v;
}
