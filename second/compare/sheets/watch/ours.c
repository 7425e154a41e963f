/* Our machine's trace. What was written is seen by comparing the whole core before and after the step. */
#include "ours.h"
#include "../../machine/plant.h"

#include <string.h>

/* Words that are compared at once. */
enum { STRETCH = 128 };

static uint8_t core[WORD * MOST + GUARD], before[WORD * MOST], row[ROW + GUARD];
static size_t length;
static uint64_t code;

void ours_begin(const struct segment *seg)
{
    length = seg->st.length;
    code = seg->record[0].first;
    words_to_bytes(seg->st.core, length, core);
    memcpy(before, core, WORD * length);
    registers_to_row(&seg->st.g, row);
    put_guard(core + WORD * length);
    put_guard(row + ROW);
}

uint64_t ours_word(uint64_t address)
{
    uint64_t word;
    bytes_to_words(core + WORD * address, 1, &word);
    return word;
}

static void look_at_word(struct done *done, size_t at)
{
    if (memcmp(core + WORD * at, before + WORD * at, WORD) == 0)
        return;
    memcpy(before + WORD * at, core + WORD * at, WORD);
    must_write(done, at);
    must_be_plain(done, at, ours_word(at));
}

static void look_at_core(struct done *done)
{
    for (size_t first = 0; first < length; first += STRETCH) {
        size_t end = first + STRETCH < length ? first + STRETCH : length;
        if (memcmp(core + WORD * first, before + WORD * first, WORD * (end - first)) == 0)
            continue;
        for (size_t at = first; at < end; at++)
            look_at_word(done, at);
    }
}

struct done ours_step(void)
{
    struct done done = {.broken = NULL};
    row_to_registers(row, &done.g);
    must_fetch(&done, done.g.C);
    done.number = fifty_five_step(core, WORD * length, row, ROW);
    /* A planted write is one into the code. */
    if (planted(PLANT_TRACE))
        core[WORD * code] ^= 1;
    row_to_registers(row, &done.g);
    look_at_core(&done);
    must_end_well(&done);
    must(&done, guarded(core + WORD * length) && guarded(row + ROW), "bytes after a buffer are written");
    return done;
}
