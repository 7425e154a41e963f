/* Why a state stops: its syllable, sentence by sentence. */
#include "why.h"
#include "../../words.h"
#include "address.h"
#include "call.h"
#include "marks.h"
#include "stack.h"

/* Of ADD, SUB and MUL: "result past 39 bits". */
static bool past_39_bits(uint64_t a, uint64_t b, enum operation operation)
{
    uint64_t x = a & MAGNITUDE, y = b & MAGNITUDE;
    if (operation == OP_MUL)
        return x != 0 && y > MAGNITUDE / x;
    bool same_sign = ((a ^ b) & SIGN) == 0;
    return same_sign == (operation == OP_ADD) && x + y > MAGNITUDE;
}

/* "An exponent not 0: 20; A zero in IDV, RDV: 21; result past 39 bits: 20"; relations "as above". */
static enum cause numbers(struct look *l, enum operation operation)
{
    WHY(fill_both(l));
    uint64_t a = l->g.A, b = l->g.B;
    if ((a & EXPONENT) != 0)
        return A_EXPONENT;
    if ((b & EXPONENT) != 0)
        return B_EXPONENT;
    if ((operation == OP_IDV || operation == OP_RDV) && (a & MAGNITUDE) == 0)
        return (a & SIGN) != 0 ? BY_MINUS_0 : BY_0;
    return operation <= OP_MUL && past_39_bits(a, b, operation) ? PAST_39_BITS : NO_CAUSE;
}

/* "low 12 bits of A are syllables forward or back from the next one, which after 131,071 is 0; a target
   before syllable 0 or after 131,071: 11. Flag on: 13 if bit 2 off" */
static enum cause jump(const struct look *l, bool forward)
{
    uint64_t a = l->g.A, here = 4 * l->st->g.C + l->st->g.L, next = (here + 1) % 131072, by = a % 4096;
    if (flagged(a))
        return (a & PRESENCE) != 0 ? NO_CAUSE : BRANCH_ABSENT;
    if (forward)
        return next + by > 131071 ? BRANCH_PAST_END : NO_CAUSE;
    if (next >= by)
        return NO_CAUSE;
    return here == 131071 ? BRANCH_BACK_FROM_0 : BRANCH_BEFORE_0;
}

/* "branch only if bit 47 of B is off ... An untaken branch doesn't look at A." */
static enum cause jump_if_off(struct look *l, bool forward)
{
    WHY(fill_both(l));
    return (l->g.B & 1) == 0 ? jump(l, forward) : NO_CAUSE;
}

static enum cause obey(struct look *l, enum operation operation)
{
    switch (operation) {
    case OP_ADD: case OP_SUB: case OP_MUL: case OP_IDV: case OP_RDV:
    case OP_GTR: case OP_GEQ: case OP_EQL: case OP_LEQ: case OP_LSS: case OP_NEQ: return numbers(l, operation);
    case OP_LND: case OP_LOR: case OP_LQV: case OP_XCH: case OP_INX: return fill_both(l);
    case OP_LNG: case OP_MOP: case OP_MDS: case OP_SSP: case OP_SSN: case OP_CHS: case OP_DEL: return fill_a(l);
    case OP_TOP: WHY(empty_a(l)); return fill_b(l, B_POP_AT_0);
    case OP_DUP: WHY(fill_a(l)); return push_b(l, DUP_MEETS);
    case OP_LOD: WHY(fill_a(l)); return place_of_a(l);
    case OP_STD: case OP_SND: WHY(fill_both(l)); return place_of_a(l);
    case OP_BFW: case OP_BBW: WHY(fill_a(l)); return jump(l, operation == OP_BFW);
    case OP_BFC: case OP_BBC: return jump_if_off(l, operation == OP_BFC);
    case OP_MKS: return mark_stack(l);
    case OP_XIT: return leave(l);
    case OP_COM: WHY(fill_a(l)); return outside(l, 64 * l->g.R + 9) ? COM_CELL_OUTSIDE : NO_CAUSE;
    case OP_LITC: return empty_a(l);
    case OP_OPDC: case OP_DESC: return call(l, syllable_at(l->st) >> 2, operation == OP_DESC);
    case OP_FETCH: return FETCH_OUTSIDE;
    case OP_OTHER: return OTHERS;
    case OP_NOP: case OPERATIONS: break;
    }
    return NO_CAUSE;
}

enum cause cause_of(const struct state *st)
{
    struct look l = {.st = st, .g = st->g, .pushed_at = MOST};
    return obey(&l, operation_of(st));
}
