/* MKS and XIT, by paper 01's sentences. */
#include "marks.h"
#include "../../words.h"
#include "stack.h"

/* "push B, then A, if full; push MSCW; F:=S; if SALF on and MSFF off, write that MSCW also at 64R+7 (11)" */
enum cause mark_stack(struct look *l)
{
    WHY(push_b(l, MKS_B_MEETS));
    if (l->g.a_full)
        WHY(push(l, l->g.A, MKS_A_MEETS));
    WHY(push(l, 0, MKS_MSCW_MEETS));
    bool written = l->g.SALF && !l->g.MSFF;
    return written && outside(l, 64 * l->g.R + 7) ? MKS_CELL_OUTSIDE : NO_CAUSE;
}

/* "read at F, follow F fields while bit 16 is on (11 outside core, or bit 16 still on at the 32,768th
   read), write the last word at 64R+7" */
static enum cause follow(const struct look *l, uint64_t mark)
{
    uint64_t at = f_field(mark), reads = 1;
    if (outside(l, at))
        return CHAIN_BEGINS_OUTSIDE;
    while ((word_at(l, at) & MARK_MSFF) != 0) {
        if (reads++ == 32768)
            return CHAIN_TOO_LONG;
        at = f_field(word_at(l, at));
        if (outside(l, at))
            return CHAIN_OUTSIDE;
    }
    return outside(l, 64 * field(mark, 6, 14) + 7) ? XIT_CELL_OUTSIDE : NO_CAUSE;
}

/* "the word at F gives C, L, F; the word at the new F gives R, MSFF, SALF, F, and S becomes its address
   less 1 (address 0: 11). Outside core 11, flag off 14. If MSFF and SALF are now both on ..." */
enum cause leave(const struct look *l)
{
    if (!l->g.SALF)
        return NO_CAUSE;
    if (outside(l, l->g.F))
        return RETURN_OUTSIDE;
    uint64_t word = word_at(l, l->g.F), at = f_field(word);
    if (!flagged(word))
        return RETURN_FLAG;
    if (at == 0)
        return MARK_AT_0;
    if (outside(l, at))
        return MARK_OUTSIDE;
    word = word_at(l, at);
    if (!flagged(word))
        return MARK_FLAG;
    return (word & MARK_MSFF) != 0 && (word & MARK_SALF) != 0 ? follow(l, word) : NO_CAUSE;
}
