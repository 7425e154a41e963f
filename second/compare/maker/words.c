/* Words of each kind by chance. */
#include "words.h"

uint64_t chance_address(const struct state *st)
{
    switch (chance(12)) {
    case 0: return chance(2);
    case 1: return st->length - 1;
    case 2: return st->length % MOST;
    case 3: return MOST - 1 - chance(3);
    default: return chance(st->length);
    }
}

uint64_t chance_r(const struct state *st)
{
    switch (chance(10)) {
    case 0: return 511;
    case 1: return chance(512);
    case 2: return st->length / 64 % 512;
    case 3: return (st->length - 1) / 64;
    default: return st->length == MOST && one_in(2) ? 511 - chance(2) : chance(3);
    }
}

uint64_t chance_operand(void)
{
    static const uint64_t limits[] = {
        LARGEST, LARGEST - 1, UINT64_C(1) << 38, (UINT64_C(1) << 38) - 1, UINT64_C(1) << 20,
        (UINT64_C(1) << 20) - 1, UINT64_C(1) << 19, (UINT64_C(1) << 19) + 1, 1023, 1024, 4095};
    uint64_t sign = one_in(3) ? ON(1) : 0;
    switch (chance(10)) {
    case 0: case 1: return sign | limits[chance(sizeof limits / sizeof *limits)];
    case 2: return sign | (1 + chance(127)) << 39 | (one_in(2) ? 0 : chance(13));
    case 3: return sign | chance(LARGEST + 1);
    default: return sign | chance(13);
    }
}

/* Its area just fits, just does not, or lies anywhere. */
static uint64_t chance_data(const struct state *st)
{
    uint64_t size = one_in(3) ? 0 : one_in(8) ? 1023 - chance(2) : 1 + chance(8);
    uint64_t address = chance_address(st);
    if (one_in(3) && size <= st->length)
        address = (st->length - size + chance(2)) % MOST;
    uint64_t rest = one_in(4) ? chance(32) << 40 | chance(MOST) << 15 : 0;
    return ON(0) | (one_in(10) ? 0 : ON(2)) | rest | size << 30 | address;
}

uint64_t chance_program_descriptor(const struct state *st)
{
    uint64_t kind = (one_in(10) ? 0 : ON(2)) | (one_in(10) ? ON(4) : 0) | (one_in(2) ? ON(5) : 0);
    return ON(0) | ON(1) | ON(3) | kind | chance_address(st) << 15 | chance_address(st);
}

uint64_t chance_mark(const struct state *st)
{
    return ON(0) | ON(1) | chance_r(st) << 33 | chance(4) << 30 | chance_address(st) << 15;
}

uint64_t chance_return(const struct state *st)
{
    return ON(0) | ON(1) | (one_in(2) ? ON(2) : 0) | chance(4) << 36 | chance_address(st) << 15 |
           chance_address(st);
}

uint64_t chance_word(const struct state *st)
{
    uint64_t word;
    switch (chance(12)) {
    case 0: case 1: case 2: word = chance_data(st); break;
    case 3: case 4: word = chance_program_descriptor(st); break;
    case 5: word = chance_mark(st); break;
    case 6: word = chance_return(st); break;
    case 7: word = chance(UINT64_C(1) << 48); break;
    default: word = chance_operand(); break;
    }
    return one_in(24) ? word ^ ON(0) : word;
}
