/* The address of k, and A's place, by paper 01's sentences. */
#include "address.h"
#include "../../words.h"

static enum cause in_core(const struct look *l, uint64_t address, enum cause cause)
{
    return outside(l, address) ? cause : NO_CAUSE;
}

/* "by leading bits of k ... Base is F, or with MSFF on the F field of the word at 64R+7." */
static enum cause pattern(const struct look *l, uint64_t k, uint64_t *address)
{
    uint64_t table = 64 * l->g.R, base = l->g.F;
    if (k >> 9 == 0) {
        *address = table + k;
        return in_core(l, *address, PATTERN_0_OUTSIDE);
    }
    if (k >> 7 == 6) {
        *address = l->st->g.C + k % 128;
        return in_core(l, *address, ABOVE_C_OUTSIDE);
    }
    if (l->g.MSFF) {
        WHY(in_core(l, table + 7, BASE_OUTSIDE));
        base = f_field(word_at(l, table + 7));
    }
    if (k >> 8 == 2) {
        *address = base + k % 256;
        return in_core(l, *address, l->g.MSFF ? ABOVE_WORD_OUTSIDE : ABOVE_F_OUTSIDE);
    }
    if (base < k % 128)
        return l->g.MSFF ? WORD_BELOW_0 : F_BELOW_0;
    *address = base - k % 128;
    return in_core(l, *address, l->g.MSFF ? BELOW_WORD_OUTSIDE : BELOW_F_OUTSIDE);
}

/* "SALF off: 64R+k." */
enum cause address_of_k(const struct look *l, uint64_t k, uint64_t *address)
{
    if (l->g.SALF)
        return pattern(l, k, address);
    *address = 64 * l->g.R + k;
    return in_core(l, *address, TABLE_OUTSIDE);
}

/* "Place: flag off, the address of A's low 10 bits; flag on, bit 2 off, 13, else bits 33-47, outside core 11." */
enum cause place_of_a(const struct look *l)
{
    uint64_t address;
    if (!flagged(l->g.A))
        return address_of_k(l, l->g.A % 1024, &address);
    if ((l->g.A & PRESENCE) == 0)
        return PLACE_ABSENT;
    return in_core(l, address_of(l->g.A), PLACE_OUTSIDE);
}
