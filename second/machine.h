/* The machine within a syllable, and its undo log; written from paper 01 alone. */
#ifndef SECOND_MACHINE_H
#define SECOND_MACHINE_H

#include "fifty_five_second.h"
#include "words.h"

/* Entry after "A empty" pushes B, B, MSCW and RCW; no syllable writes more words. */
enum { LOG_ROOM = 4 };

struct machine {
    uint64_t *core;
    uint64_t length;
    struct second_registers g;
    uint64_t present; /* "the present syllable's word address" */
    const struct second_watch *watch;
    unsigned logged;
    struct {
        uint64_t address, word;
    } log[LOG_ROOM];
};

/* Goes on to the next sentence of the paper, or stops with the number. */
#define MUST(sentence)                                                                  \
    do {                                                                                \
        int number_ = (sentence);                                                       \
        if (number_ != SECOND_WENT_ON)                                                  \
            return number_;                                                             \
    } while (0)

/* "not below core length: 11. This holds for every reference." */
PART int read_core(const struct machine *m, uint64_t address, uint64_t *word)
{
    if (address >= m->length)
        return SECOND_ADDRESS;
    *word = m->core[address];
    return SECOND_WENT_ON;
}

PART int write_core(struct machine *m, uint64_t address, uint64_t word)
{
    if (address >= m->length)
        return SECOND_ADDRESS;
    if (m->watch != NULL && m->watch->write != NULL)
        m->watch->write(m->watch->watcher, address);
    m->log[m->logged].address = address;
    m->log[m->logged].word = m->core[address];
    m->logged++;
    m->core[address] = word;
    return SECOND_WENT_ON;
}

/* "Every number but 17 leaves ... core as before that syllable": newest write first. */
PART void undo_writes(struct machine *m)
{
    while (m->logged != 0) {
        m->logged--;
        m->core[m->log[m->logged].address] = m->log[m->logged].word;
    }
}

/* "The reference table (PRT) starts at 64R." */
PART uint64_t table_cell(const struct machine *m, uint64_t cell)
{
    return 64 * m->g.R + cell;
}

#endif
