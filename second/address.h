/* The address of k, and A's place; written from paper 01 alone. */
#ifndef SECOND_ADDRESS_H
#define SECOND_ADDRESS_H

#include "machine.h"

/* "Base is F, or with MSFF on the F field of the word at 64R+7." */
PART int base_address(const struct machine *m, uint64_t *base)
{
    *base = m->g.F;
    if (m->g.MSFF) {
        uint64_t word;
        MUST(read_core(m, table_cell(m, 7), &word));
        *base = f_field(word);
    }
    return SECOND_WENT_ON;
}

/* "SALF on, by leading bits of k ... Below 0 ...: 11." */
PART int pattern_address(const struct machine *m, uint64_t k, uint64_t *address)
{
    if ((k & 01000) == 0) {
        *address = table_cell(m, k & 0777);
        return SECOND_WENT_ON;
    }
    if ((k & 01600) == 01400) {
        *address = m->present + (k & 0177);
        return SECOND_WENT_ON;
    }
    uint64_t base;
    MUST(base_address(m, &base));
    if ((k & 01400) == 01000) {
        *address = base + (k & 0377);
        return SECOND_WENT_ON;
    }
    if (base < (k & 0177))
        return SECOND_ADDRESS;
    *address = base - (k & 0177);
    return SECOND_WENT_ON;
}

/* "SALF off: 64R+k." The read or write that follows tests it against the core. */
PART int address_of_k(const struct machine *m, uint64_t k, uint64_t *address)
{
    if (m->g.SALF)
        return pattern_address(m, k, address);
    *address = table_cell(m, k);
    return SECOND_WENT_ON;
}

/* "Place: flag off, the address of A's low 10 bits; flag on, bit 2 off, 13, else
   bits 33-47". The read or write that follows tests it against the core. */
PART int place_of_a(const struct machine *m, uint64_t *place)
{
    if (!flagged(m->g.A))
        return address_of_k(m, m->g.A & 01777, place);
    if ((m->g.A & PRESENCE) == 0)
        return SECOND_PRESENCE;
    *place = address_of(m->g.A);
    return SECOND_WENT_ON;
}

#endif
