/* Broken clauses of 35: targets outside the code, or where items wait. */
#include "clauses.h"
#include "../../../codes.h"
#include "../../maker/chance.h"
#include "damage.h"

enum { MOST_DISTANCE = 1023, TRIES = 40 };

enum fault {
    BFW_AFTER, BFC_AFTER, BBW_BEFORE, BBC_BEFORE, BFW_SHAPE, BFC_SHAPE, BBW_SHAPE, BBC_SHAPE, /* by operator */
    FORWARD_PAST_CORE, BACK_PAST_CORE,       /* from code at the end, at the start of core */
    LAST_BBW, LAST_BFW, END_BBW, END_BBW_0, END_BFW, /* in the last syllable of code, of core */
    TWO_BRANCHES, FAULTS
};

static void wants_place(struct wish *wish, unsigned which)
{
    *wish = (struct wish){.cell_9 = NUMBER_CELL, .small = true};
    if (which == BACK_PAST_CORE)
        wish->first = CODE_AREA;
    else
        wish->last = CODE_AREA;
}

/* A branch by chance, of this operator if there is one in the code. */
static struct branch *chance_branch(struct program *p, unsigned operator)
{
    for (unsigned tries = 0; tries < TRIES; tries++) {
        struct branch *b = &p->branch[chance(p->branches)];
        if (p->syllable[b->at] == operator)
            return b;
    }
    return NULL;
}

static void set_distance(struct program *p, const struct branch *b, unsigned distance)
{
    p->syllable[b->literal] = LITC(distance);
}

/* From the first distance that leaves the code up to the longest. */
static bool leave(struct program *p, const struct branch *b, bool forward)
{
    unsigned next = b->at + 1, least = forward ? p->made - next : next + 1;
    if (least > MOST_DISTANCE)
        return false;
    set_distance(p, b, one_in(2) ? least : least + below(MOST_DISTANCE + 1 - least));
    return true;
}

/* To a syllable of the code that meets an item. */
static bool meet_items(struct program *p, const struct branch *b, bool forward)
{
    unsigned next = b->at + 1, most = forward ? p->made - 1 - next : next;
    most = most < MOST_DISTANCE ? most : MOST_DISTANCE;
    for (unsigned tries = 0; tries < TRIES; tries++) {
        unsigned distance = below(one_in(2) && most > 8 ? 8 : most + 1);
        if (p->items_before[forward ? next + distance : next - distance] == 0)
            continue;
        set_distance(p, b, distance);
        return true;
    }
    return false;
}

static bool spoil_operator(struct program *p, unsigned operator, bool leaves, uint64_t *place)
{
    const struct branch *b = chance_branch(p, operator);
    if (b == NULL || b->at + 1 == p->made)
        return false;
    bool forward = operator == BFW || operator == BFC;
    *place = b->at;
    return leaves ? leave(p, b, forward) : meet_items(p, b, forward);
}

/* Another end of the code: a literal and a branch. */
static bool spoil_last(struct program *p, unsigned distance, unsigned operator, uint64_t *place)
{
    p->syllable[p->made - 2] = LITC(distance);
    p->syllable[p->made - 1] = operator;
    *place = p->made - 1;
    return true;
}

/* A distance that would be good in any other place of core. */
static unsigned good_distance(const struct program *p)
{
    unsigned most = p->made < MOST_DISTANCE ? p->made : MOST_DISTANCE, distance = 1 + below(most);
    while (p->items_before[p->made - distance] != 0)
        distance--;
    return distance != 0 ? distance : 2;
}

static bool spoil_two(struct program *p, uint64_t *place)
{
    uint64_t one, other;
    if (!spoil_operator(p, one_in(2) ? BFW : BFC, true, &one) ||
        !spoil_operator(p, one_in(2) ? BBW : BBC, true, &other))
        return false;
    *place = one < other ? one : other;
    return true;
}

static bool spoil_target(struct segment *seg, unsigned which, uint64_t *place)
{
    static const unsigned operators[] = {BFW, BFC, BBW, BBC};
    struct program *p = &seg->program;
    if (p->branches == 0)
        return false;
    switch ((enum fault)which) {
    case BFW_AFTER: case BFC_AFTER: case BBW_BEFORE: case BBC_BEFORE:
        return spoil_operator(p, operators[which], true, place);
    case BFW_SHAPE: case BFC_SHAPE: case BBW_SHAPE: case BBC_SHAPE:
        return spoil_operator(p, operators[which - BFW_SHAPE], false, place);
    case FORWARD_PAST_CORE: return spoil_operator(p, one_in(2) ? BFW : BFC, true, place);
    case BACK_PAST_CORE: return spoil_operator(p, one_in(2) ? BBW : BBC, true, place);
    case LAST_BBW: return spoil_last(p, 0, BBW, place);
    case LAST_BFW: case END_BFW: return spoil_last(p, one_in(2) ? 0 : below(1024), BFW, place);
    case END_BBW: return spoil_last(p, good_distance(p), BBW, place);
    case END_BBW_0: return spoil_last(p, 0, BBW, place);
    case TWO_BRANCHES: return spoil_two(p, place);
    case FAULTS: break;
    }
    return false;
}

void list_target_clauses(void)
{
    static const char *const names[FAULTS] = {
        "BFW past the code", "BFC past the code", "BBW before the code", "BBC before the code",
        "BFW to where items wait", "BFC to where items wait", "BBW to where items wait",
        "BBC to where items wait", "forward past syllable 131,071", "back before syllable 0",
        "BBW by 0 in the last syllable", "BFW in the last syllable",
        "BBW in syllable 131,071", "BBW by 0 in syllable 131,071", "BFW in syllable 131,071",
        "two bad branches, the lowest"};
    for (unsigned i = 0; i < FAULTS; i++) {
        struct clause *c = add_clause(35, names[i], spoil_target, i);
        c->of_code = true;
        bool placed = i == FORWARD_PAST_CORE || i == BACK_PAST_CORE || i == END_BBW || i == END_BBW_0 || i == END_BFW;
        c->wants = placed ? wants_place : NULL;
    }
}
