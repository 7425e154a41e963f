/* Push, pop and the adjustments, by paper 01's sentences. */
#include "stack.h"

/* "Stop 12 if floor((S+1)/64)=R, else 11 if S+1 is not below the core length." */
enum cause push(struct look *l, uint64_t word, enum cause meets)
{
    uint64_t to = l->g.S + 1;
    if (to / 64 == l->g.R)
        return meets;
    if (outside(l, to))
        return (enum cause)(meets + 1);
    l->g.S = l->pushed_at = to;
    l->pushed = word;
    return NO_CAUSE;
}

enum cause push_b(struct look *l, enum cause meets)
{
    if (l->g.b_full)
        WHY(push(l, l->g.B, meets));
    l->g.b_full = 0;
    return NO_CAUSE;
}

/* "11 if S=0 or S is not below the core length; else read at S, then S-1." */
static enum cause pop(struct look *l, uint64_t *word, enum cause at_0)
{
    if (l->g.S == 0)
        return at_0;
    if (outside(l, l->g.S))
        return (enum cause)(at_0 + 1);
    *word = word_at(l, l->g.S--);
    return NO_CAUSE;
}

/* "A empty: if A is full, push B if full, move A to B." */
enum cause empty_a(struct look *l)
{
    if (!l->g.a_full)
        return NO_CAUSE;
    WHY(push_b(l, EMPTY_A_MEETS));
    l->g.B = l->g.A;
    l->g.b_full = 1;
    l->g.a_full = 0;
    return NO_CAUSE;
}

/* "A full: if empty, take B if full, else pop." */
enum cause fill_a(struct look *l)
{
    if (l->g.a_full)
        return NO_CAUSE;
    if (l->g.b_full)
        l->g.A = l->g.B;
    else
        WHY(pop(l, &l->g.A, A_POP_AT_0));
    l->g.a_full = 1;
    l->g.b_full = 0;
    return NO_CAUSE;
}

/* "B full: if empty, pop." */
enum cause fill_b(struct look *l, enum cause at_0)
{
    if (!l->g.b_full)
        WHY(pop(l, &l->g.B, at_0));
    l->g.b_full = 1;
    return NO_CAUSE;
}

/* "Both full: make A full, then pop B if empty." */
enum cause fill_both(struct look *l)
{
    WHY(fill_a(l));
    return fill_b(l, THEN_POP_AT_0);
}
