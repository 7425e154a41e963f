/* States by chance: a core of any length, registers at its edges, and a syllable to obey. */
#include "states.h"
#include "../machine/operations.h"
#include "scenes.h"
#include "words.h"

/* The words of a large core repeat themselves, so that there is time for many. */
enum { REPEATED = 1021 };

static size_t chance_length(void)
{
    if (one_in(100))
        return MOST - (one_in(3) ? chance(3) : 0);
    switch (chance(12)) {
    case 0: return 1 + chance(12);
    case 1: case 2: return 64 * (1 + chance(4)) - 1 + chance(3);
    case 3: return 500 + chance(200);
    default: return 64 + chance(137);
    }
}

/* At 0, at the end of a page, at the end of core, or in it. */
static uint64_t chance_s(const struct state *st)
{
    uint64_t table = 64 * st->g.R;
    switch (chance(12)) {
    case 0: return chance(3);
    case 1: case 2: return (table - 1 - chance(3)) % MOST;
    case 3: case 4: return st->length - 1 - (st->length > 3 ? chance(3) : 0);
    case 5: return st->length % MOST;
    case 6: return MOST - 1 - chance(2);
    case 7: return (64 * chance(1 + st->length / 64) + 63) % MOST;
    default: return chance(st->length);
    }
}

static void chance_place(struct state *st)
{
    st->g.C = chance(st->length);
    st->g.L = chance(4);
    if (one_in(12)) {
        st->g.C = st->length - 1;
        st->g.L = 3;
    }
    if (one_in(40))
        st->g.C = one_in(2) ? chance(MOST) : st->length % MOST;
}

void chance_state(struct state *st)
{
    st->length = chance_length();
    st->g = (struct second_registers){0};
    for (size_t i = 0; i < st->length; i++)
        st->core[i] = i < REPEATED ? chance_word(st) : st->core[i - REPEATED];
    st->g.R = chance_r(st);
    st->g.S = chance_s(st);
    st->g.F = one_in(4) ? st->g.S : chance_address(st);
    st->g.SALF = chance(2);
    st->g.MSFF = chance(2);
    chance_place(st);
    uint64_t filled = chance(4);
    if (filled & 1) {
        st->g.a_full = 1;
        st->g.A = one_in(2) ? chance_operand() : chance_word(st);
    }
    if (filled & 2) {
        st->g.b_full = 1;
        st->g.B = one_in(2) ? chance_operand() : chance_word(st);
    }
    unsigned syllable = chance_scene(st);
    if (st->g.C < st->length)
        put_syllable(st, st->g.C, st->g.L, syllable);
}
