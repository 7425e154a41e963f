/* The syllable that a state obeys: any, or one at an edge of its sentence. */
#include "scenes.h"
#include "../../codes.h"
#include "../machine/operations.h"
#include "syllables.h"
#include "words.h"

/* ---- XIT */

/* Control words where XIT looks for them: a return, its mark, and a chain that ends or loops. */
static void chance_chain(struct state *st)
{
    uint64_t f = st->g.F, mark = chance_address(st), link = chance_address(st);
    st->g.SALF = !one_in(8);
    if (f >= st->length || mark >= st->length)
        return;
    st->core[mark] = (chance_mark(st) & ~(uint64_t)(077777 << 15)) | link << 15;
    for (uint64_t turns = chance(5); turns != 0 && link < st->length; turns--) {
        uint64_t next = one_in(4) ? link : chance_address(st);
        st->core[link] = (chance_mark(st) & ~(uint64_t)(077777 << 15)) | ON(16) | next << 15;
        link = next;
    }
    st->core[f] = (chance_return(st) & ~(uint64_t)(077777 << 15)) | mark << 15;
    if (one_in(8))
        st->core[one_in(2) ? f : mark] &= ~ON(0);
}

/* The longest chain that ends: all words of a full core but the mark. The return is its last. */
static void longest_chain(struct state *st)
{
    uint64_t mark = 1 + chance(MOST - 2), f = MOST - 1;
    for (uint64_t i = 0; i < MOST; i++)
        st->core[i] = ON(16) | (i + 1 == mark ? i + 2 : i + 1) % MOST << 15;
    st->core[mark] = ON(0) | ON(1) | ON(16) | ON(17);
    st->core[f] = ON(0) | ON(1) | mark << 15 | chance(MOST);
    st->g.F = f;
    st->g.SALF = 1;
    st->g.C = chance(f);
    st->g.L = 0;
}

static unsigned leave(struct state *st)
{
    if (!one_in(4))
        chance_chain(st);
    return XIT;
}

/* ---- numbers and branches */

static void fill(struct state *st, uint64_t a, uint64_t b)
{
    st->g.a_full = st->g.b_full = 1;
    st->g.A = a;
    st->g.B = b;
}

/* A sum, a difference or a product at the largest magnitude, or one past it; or a zero in A. */
static unsigned numbers_at_the_limit(struct state *st)
{
    uint64_t a = chance(LARGEST), signs = chance(4), power = chance(40);
    uint64_t b = LARGEST - a + chance(2);
    if (one_in(3)) {
        a = UINT64_C(1) << power;
        b = UINT64_C(1) << (39 - power);
        a -= chance(2);
    }
    if (one_in(6))
        a = 0;
    fill(st, (a & LARGEST) | (signs & 1 ? ON(1) : 0), (b & LARGEST) | (signs & 2 ? ON(1) : 0));
    return operator_code(OP_ADD + below(11));
}

/* In a full core: near the first syllable, near the last, or the last itself, after which is 0. */
static void place_at_an_end(struct state *st)
{
    switch (chance(4)) {
    case 0: st->g.C = chance(1000); break;
    case 1: st->g.C = MOST - 1; st->g.L = 3; break;
    default: st->g.C = MOST - 1 - chance(1000); break;
    }
}

/* A branch to the first or the last syllable, or just past it. */
static unsigned branch_to_the_end(struct state *st)
{
    if (st->length == MOST)
        place_at_an_end(st);
    uint64_t next = (4 * st->g.C + st->g.L + 1) % (4 * MOST);
    bool forward = next > 4095;
    uint64_t distance = (forward ? 4 * MOST - 1 - next : next) + chance(3);
    fill(st, distance % 4096, chance(10) & ~UINT64_C(1));
    if (one_in(8))
        forward = !forward;
    return forward ? one_in(2) ? BFW : BFC : one_in(2) ? BBW : BBC;
}

/* ---- stack and table */

/* The word is put in a cell of the table; answers its k. */
static uint64_t put_in_cell(struct state *st, uint64_t word)
{
    st->g.R = chance(1 + (st->length - 1) / 64);
    st->g.SALF = 0;
    uint64_t words = st->length - 64 * st->g.R, k = chance(words < 1024 ? words : 1024);
    st->core[64 * st->g.R + k] = word;
    return k;
}

/* A register is empty, and the stack ends at 0 or is outside core. */
static unsigned short_of_words(struct state *st)
{
    uint64_t empty = chance(3);
    if (empty != 1)
        st->g.A = st->g.a_full = 0;
    if (empty != 2)
        st->g.B = st->g.b_full = 0;
    st->g.S = one_in(2) ? chance(2) : st->length % MOST;
    if (!one_in(6))
        return operator_code(below(OPERATORS));
    uint64_t k = put_in_cell(st, ON(0) | ON(2) | (1 + chance(8)) << 30 | chance_address(st));
    return one_in(2) ? OPDC(k) : DESC(k);
}

/* A word of any kind is called. */
static unsigned call_a_cell(struct state *st)
{
    uint64_t k = put_in_cell(st, chance_word(st));
    return one_in(2) ? OPDC(k) : DESC(k);
}

/* A place by each pattern of k. */
static unsigned place_by_k(struct state *st)
{
    static const unsigned operators[] = {LOD, STD, SND};
    uint64_t rest = chance(2) ? chance(ON(0)) & ~UINT64_C(01777) : 0;
    fill(st, rest | chance_k(st), chance_word(st));
    return operators[chance(3)];
}

unsigned chance_scene(struct state *st)
{
    if (st->length == MOST && one_in(2)) {
        if (!one_in(8))
            return branch_to_the_end(st);
        longest_chain(st);
        return XIT;
    }
    switch (chance(16)) {
    case 0: return leave(st);
    case 1: return numbers_at_the_limit(st);
    case 2: return branch_to_the_end(st);
    case 3: case 4: return short_of_words(st);
    case 5: case 6: return place_by_k(st);
    case 7: return call_a_cell(st);
    default: return chance_syllable(st);
    }
}
