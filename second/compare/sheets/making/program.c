/* Code that passes the scan: statements, conditions, loops and COM, by chance. */
#include "program.h"
#include "../../../codes.h"
#include "../../maker/chance.h"
#include "cells.h"
#include "code.h"
#include "expressions.h"
#include "stores.h"

enum { NEARNESS = 1023, SLACK = 200 };

/* ---- branches */

/* The literal of a branch, at times carried on as a literal; answers where it stands. */
static unsigned make_distance(void)
{
    unsigned literal = code->made;
    put(LITC(0), 1);
    switch (chance(10)) {
    case 0: put(DUP, 1); put(DEL, -1); break;
    case 1: put(TOP, 1); put(DEL, -1); break;
    case 2: put(LITC(stored_cell()), 1); put(SND, -1); break;
    default: break;
    }
    return literal;
}

static unsigned note_branch(unsigned operator, unsigned literal, bool open)
{
    code->branch[code->branches] = (struct branch){code->made, literal, open};
    put(operator, operator == BFW || operator == BBW ? -1 : -2);
    return code->branches++;
}

static unsigned make_branch(unsigned operator, bool open)
{
    return note_branch(operator, make_distance(), open);
}

/* The distance under the condition, or over it. */
static unsigned make_conditional(unsigned operator, bool open)
{
    if (!one_in(5)) {
        make_word(1);
        return make_branch(operator, open);
    }
    unsigned literal = make_distance();
    make_word(1);
    put(XCH, 0);
    return note_branch(operator, literal, open);
}

/* Whether the branch can reach the target, which it then does. */
static bool aim(unsigned branch, unsigned target)
{
    unsigned next = code->branch[branch].at + 1;
    unsigned distance = target > next ? target - next : next - target;
    if (distance > NEARNESS)
        return false;
    code->syllable[code->branch[branch].literal] = LITC(distance);
    return true;
}

/* A syllable in reach that meets no item, back from here. */
static unsigned back_from_here(unsigned reach)
{
    unsigned target = code->made - below((code->made < reach ? code->made : reach) + 1);
    while (code->items_before[target] != 0)
        target++;
    return target;
}

/* ---- statements: each leaves nothing */

static void make_statements(unsigned deep);

static bool make_condition(unsigned deep)
{
    unsigned past = make_conditional(BFC, false);
    make_statements(deep);
    if (one_in(2))
        return aim(past, code->made);
    unsigned over = make_branch(BFW, false);
    if (!aim(past, code->made))
        return false;
    make_statements(deep);
    return aim(over, code->made);
}

/* A counter from some number down to 0, unless a COM or another stop ends it. */
static bool make_counted_loop(unsigned deep)
{
    unsigned counter = seg->numbers.cell[deep];
    put(LITC(1 + chance(9)), 1);
    put(LITC(counter), 1);
    put(STD, -2);
    unsigned top = code->made;
    make_statements(deep);
    put(OPDC(counter), 1);
    put(LITC(1), 1);
    put(SUB, -1);
    put(LITC(counter), 1);
    put(SND, -1);
    put(LITC(0), 1);
    put(EQL, -1);
    return aim(make_branch(BBC, false), top);
}

static bool make_while_loop(unsigned deep)
{
    unsigned top = code->made, past = make_conditional(BFC, false);
    make_statements(deep);
    unsigned back = make_branch(BBW, false);
    return aim(back, top) && aim(past, code->made);
}

static bool make_statement(unsigned deep)
{
    switch (chance(deep == 0 ? 8 : 14)) {
    case 0:
        put(NOP, 0);
        return true;
    case 1:
        if (one_in(4)) {
            make_pile();
            return true;
        }
        if (one_in(2))
            make_word(2);
        else
            make_place();
        put(DEL, -1);
        return true;
    case 2:
        if (seg->kind[9] == NUMBER_CELL && one_in(4)) {
            make_word(1);
            put(COM, -1);
        }
        return true;
    case 3: {
        unsigned which = below(6);
        if (which == 0) {
            unsigned back = make_conditional(BBC, false);
            return aim(back, back_from_here(80));
        }
        if (which == 1)
            make_conditional(BFC, true);
        else if (which == 2)
            make_branch(BFW, true);
        return true;
    }
    case 8: case 9: return make_condition(deep - 1);
    case 10: return make_while_loop(deep - 1);
    case 11: case 12: case 13:
        return deep <= seg->counters ? make_counted_loop(deep - 1) : make_while_loop(deep - 1);
    default: make_store(); return true;
    }
}

/* What finds no room or is out of a branch's reach is taken back. */
static void make_statements(unsigned deep)
{
    for (unsigned n = 1 + below(3); n != 0; n--) {
        unsigned made = code->made, branches = code->branches;
        if (made + SLACK > MOST_SYLLABLES || make_statement(deep))
            continue;
        code->made = made;
        code->branches = branches;
        code->items = 0;
    }
}

void make_body(struct segment *of, bool longest)
{
    make_in(of);
    code->made = code->items = code->branches = 0;
    code->items_before[0] = 0;
    code->wild = one_in(3);
    unsigned room = one_in(3) ? below(40) : 30 + below(150);
    if (one_in(40))
        room = 300 + below(3000);
    if (longest)
        room = MOST_SYLLABLES - SLACK;
    while (code->made < room)
        make_statements(3);
}

/* Open branches go on to a syllable that meets no item. */
static void aim_open_branches(void)
{
    for (unsigned i = 0; i < code->branches; i++) {
        if (!code->branch[i].open)
            continue;
        unsigned next = code->branch[i].at + 1;
        unsigned reach = code->made - next < NEARNESS ? code->made - next : NEARNESS + 1;
        unsigned target = next + below(one_in(2) && reach > 20 ? 20 : reach);
        while (code->items_before[target] != 0)
            target--;
        aim(i, target);
    }
}

/* Of what was not taken back. */
static void find_deepest(void)
{
    code->deepest = 0;
    for (unsigned i = 0; i <= code->made; i++)
        if (code->items_before[i] > code->deepest)
            code->deepest = code->items_before[i];
}

/* "The last syllable is COM, BFW or BBW"; and a word has four. */
void make_end(struct segment *of, bool communicates, bool longest)
{
    make_in(of);
    while (code->made % 4 != 2 || (longest && code->made < MOST_SYLLABLES - 2))
        put(NOP, 0);
    if (communicates) {
        put(one_in(2) ? OPDC(any_of(&seg->numbers)) : LITC(chance(1024)), 1);
        put(COM, -1);
    } else {
        unsigned literal = code->made, target = back_from_here(one_in(2) ? 1000 : 40);
        put(LITC(0), 1);
        aim(note_branch(BBW, literal, false), target);
    }
    aim_open_branches();
    find_deepest();
}
