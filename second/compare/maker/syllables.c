/* Syllables by chance. */
#include "syllables.h"
#include "../../codes.h"
#include "../machine/operations.h"
#include "words.h"

uint64_t chance_k(const struct state *st)
{
    uint64_t m = chance_address(st), table = 64 * st->g.R, base = st->g.F, k = chance(1024);
    if (one_in(8))
        return k;
    if (!st->g.SALF)
        return (m - table) % 1024;
    if (st->g.MSFF && table + 7 < st->length)
        base = st->core[table + 7] >> 15 & 077777;
    switch (chance(4)) {
    case 0: return (m - table) % 512;
    case 1: return 01000 | (m - base) % 256;
    case 2: return 01400 | (m - st->g.C) % 128;
    default: return 01600 | (one_in(3) ? chance(3) : (base - m) % 128);
    }
}

unsigned chance_syllable(const struct state *st)
{
    switch (chance(16)) {
    case 0: return below(4096);
    case 1: return LITC(chance_k(st));
    case 2: case 3: case 4: return OPDC(chance_k(st));
    case 5: case 6: return DESC(chance_k(st));
    default: return operator_code(below(OPERATORS));
    }
}
