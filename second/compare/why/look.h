/* A step as far as it is looked at: how its sentences change the registers until one of them stops. */
#ifndef SECOND_LOOK_H
#define SECOND_LOOK_H

#include "../reached/causes.h"

/* No syllable reads more than the last of the words that it has pushed. */
struct look {
    const struct state *st;
    struct second_registers g;
    uint64_t pushed_at, pushed; /* in core if there is one */
};

/* Goes on to the next sentence, or answers why it stops. */
#define WHY(sentence)                                                                                  \
    do {                                                                                               \
        enum cause cause_ = (sentence);                                                                \
        if (cause_ != NO_CAUSE)                                                                        \
            return cause_;                                                                             \
    } while (0)

static inline bool outside(const struct look *l, uint64_t address) { return address >= l->st->length; }

static inline uint64_t word_at(const struct look *l, uint64_t address)
{
    return address == l->pushed_at ? l->pushed : l->st->core[address];
}

#endif
