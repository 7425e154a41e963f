/* Operand call and descriptor call, by paper 01's sentences. */
#include "call.h"
#include "../../words.h"
#include "address.h"
#include "stack.h"

/* "exponent not 0: 20; below 0 or at least size: 15; -0 is 0; flag ignored" */
static enum cause take_index(struct look *l, uint64_t size)
{
    WHY(fill_b(l, B_POP_AT_0));
    uint64_t index = l->g.B & MAGNITUDE;
    if ((l->g.B & EXPONENT) != 0)
        return INDEX_EXPONENT;
    if ((l->g.B & SIGN) != 0 && index != 0)
        return INDEX_BELOW_0;
    if (index >= size)
        return index == size ? INDEX_AT_SIZE : INDEX_PAST_SIZE;
    return NO_CAUSE;
}

/* "OPDC then reads that address (11 if outside core; flag on: 14) into A; DESC leaves the descriptor." */
static enum cause call_data(struct look *l, uint64_t word, bool descriptor_call)
{
    uint64_t size = size_of(word), address = address_of(word);
    if ((word & PRESENCE) == 0)
        return DATA_ABSENT;
    if (size != 0) {
        WHY(take_index(l, size));
        address = (address + (l->g.B & MAGNITUDE)) % MOST;
    }
    if (descriptor_call)
        return NO_CAUSE;
    if (outside(l, address))
        return size != 0 ? INDEXED_OUTSIDE : DESCRIBED_OUTSIDE;
    if (flagged(word_at(l, address)))
        return size != 0 ? INDEXED_FLAG : DESCRIBED_FLAG;
    return NO_CAUSE;
}

/* "mode on, 19; argument on with MSFF off, left in A; otherwise enter: push B if full; argument off,
   push MSCW ...; push RCW" */
static enum cause call_program(struct look *l, uint64_t word)
{
    if ((word & PRESENCE) == 0)
        return PROGRAM_ABSENT;
    if ((word & MODE) != 0)
        return MODE_ON;
    bool argument = (word & ARGUMENT) != 0;
    if (argument && !l->g.MSFF)
        return NO_CAUSE;
    WHY(push_b(l, ENTER_B_MEETS));
    if (!argument)
        WHY(push(l, 0, ENTER_MSCW_MEETS));
    return push(l, 0, ENTER_RCW_MEETS);
}

/* "A empty, form the address m from k, put the word at m in A, then call it." */
enum cause call(struct look *l, uint64_t k, bool descriptor_call)
{
    uint64_t at;
    WHY(empty_a(l));
    WHY(address_of_k(l, k, &at));
    uint64_t word = word_at(l, at);
    if (is_data(word))
        return call_data(l, word, descriptor_call);
    return is_program(word) ? call_program(l, word) : NO_CAUSE;
}
