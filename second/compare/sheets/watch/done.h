/* What one step did, of our machine or of the second one. */
#ifndef SECOND_DONE_H
#define SECOND_DONE_H

#include "rights.h"

/* More words than a syllable writes. */
enum { MOST_WRITTEN = 8 };

struct done {
    uint64_t number;
    struct second_registers g; /* after it */
    uint64_t written[MOST_WRITTEN];
    unsigned words;
    const char *broken; /* the first thing that the sheet does not let it do, or NULL */
};

static inline void must(struct done *done, bool holds, const char *what)
{
    if (!holds && done->broken == NULL)
        done->broken = what;
}

static inline void must_fetch(struct done *done, uint64_t address)
{
    must(done, may_fetch(address), "a fetch outside the code");
}

static inline void must_write(struct done *done, uint64_t address)
{
    must(done, may_write(address), "a write outside the sheet");
    must(done, done->words < MOST_WRITTEN, "more writes than a syllable has");
    if (done->words < MOST_WRITTEN)
        done->written[done->words++] = address;
}

static inline void must_be_plain(struct done *done, uint64_t address, uint64_t word)
{
    must(done, !is_number(address) || (word & ON(0)) == 0, "a number cell or a word of an array has its flag on");
}

static inline void must_end_well(struct done *done)
{
    must(done, may_answer(done->number), "a stop that no passed segment has");
    must(done, registers_kept(&done->g), "a register that is not the sheet's");
}

#endif
