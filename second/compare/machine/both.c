/* One state on both machines: the number, all registers and the whole core are compared. */
#include "both.h"
#include "plant.h"

#include <stdio.h>
#include <string.h>

/* The cabinet's side. */
static uint8_t core_bytes[WORD * MOST + GUARD], row_bytes[ROW + GUARD];

static void take_over(const struct state *st)
{
    words_to_bytes(st->core, st->length, core_bytes);
    registers_to_row(&st->g, row_bytes);
    put_guard(core_bytes + WORD * st->length);
    put_guard(row_bytes + ROW);
}

static char text[200];

/* The first thing in which the cabinet's bytes are not the second machine's state. */
static const char *difference(const struct state *st, uint64_t ours, uint64_t second)
{
    static const char *const names[] = {"A", "a_full", "B", "b_full", "S", "F",
                                        "C", "R", "L", "SALF", "MSFF"};
    static uint8_t expected[WORD * MOST], expected_row[ROW];
    uint64_t x, y;
    if (ours != second) {
        snprintf(text, sizeof text, "number %llu, second %llu", (unsigned long long)ours,
                 (unsigned long long)second);
        return text;
    }
    registers_to_row(&st->g, expected_row);
    for (size_t i = 0; i < ROW / WORD; i++) {
        bytes_to_words(row_bytes + WORD * i, 1, &x);
        bytes_to_words(expected_row + WORD * i, 1, &y);
        if (x == y)
            continue;
        snprintf(text, sizeof text, "number %llu, register %s: %016llo, second %016llo",
                 (unsigned long long)ours, names[i], (unsigned long long)x, (unsigned long long)y);
        return text;
    }
    words_to_bytes(st->core, st->length, expected);
    for (size_t i = 0; i < st->length; i++) {
        if (memcmp(core_bytes + WORD * i, expected + WORD * i, WORD) == 0)
            continue;
        bytes_to_words(core_bytes + WORD * i, 1, &x);
        snprintf(text, sizeof text, "number %llu, word %zu: %016llo, second %016llo",
                 (unsigned long long)ours, i, (unsigned long long)x, (unsigned long long)st->core[i]);
        return text;
    }
    if (!guarded(core_bytes + WORD * st->length) || !guarded(row_bytes + ROW))
        return "bytes after a buffer are written";
    return NULL;
}

/* A planted difference is a wrong answer of the cabinet. */
static void spoil(const struct state *st, uint64_t *number)
{
    if (planted(PLANT_NUMBER))
        *number ^= 1;
    if (planted(PLANT_REGISTER))
        row_bytes[WORD * FIFTY_FIVE_MSFF + 5] ^= 1;
    if (planted(PLANT_CORE))
        core_bytes[WORD * (st->length - 1) + 5] ^= 1;
}

struct verdict both_step(struct state *st)
{
    take_over(st);
    uint64_t ours = fifty_five_step(core_bytes, WORD * st->length, row_bytes, ROW);
    struct verdict v = {.number = (uint64_t)second_step(st->core, st->length, &st->g)};
    spoil(st, &ours);
    v.difference = difference(st, ours, v.number);
    return v;
}

struct verdict both_run(struct state *st, uint64_t budget)
{
    take_over(st);
    uint64_t completed = UINT64_MAX; /* every call writes it */
    uint64_t ours = fifty_five_run(core_bytes, WORD * st->length, row_bytes, ROW, budget, &completed);
    struct verdict v = {0};
    v.number = (uint64_t)second_run(st->core, st->length, &st->g, budget, &v.completed);
    spoil(st, &ours);
    if (planted(PLANT_COMPLETED))
        completed ^= 1;
    v.difference = difference(st, ours, v.number);
    if (v.difference == NULL && completed != v.completed) {
        snprintf(text, sizeof text, "completed %llu, second %llu", (unsigned long long)completed,
                 (unsigned long long)v.completed);
        v.difference = text;
    }
    return v;
}
