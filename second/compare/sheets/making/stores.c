/* Stores by chance, in number cells and in arrays, with the place above or below its word. */
#include "stores.h"
#include "../../../codes.h"
#include "../../maker/chance.h"
#include "cells.h"
#include "code.h"
#include "expressions.h"

void make_place(void)
{
    if (seg->arrays.count != 0 && one_in(2)) {
        unsigned array = any_of(&seg->arrays);
        make_index(array, 1);
        put(DESC(array), 0);
    } else {
        put(DESC(stored_cell()), 1);
    }
}

void make_store(void)
{
    switch (chance(6)) {
    case 0: /* the place first */
        make_place();
        make_word(2);
        make_smaller();
        put(XCH, 0);
        put(STD, -2);
        break;
    case 1: /* the place used twice */
        make_place();
        put(DUP, 1);
        put(LOD, 0);
        make_word(1);
        make_two_operator();
        make_smaller();
        put(XCH, 0);
        put(STD, -2);
        break;
    case 2: /* one word stored twice */
        make_word(2);
        make_smaller();
        make_place();
        put(SND, -1);
        put(LITC(stored_cell()), 1);
        put(STD, -2);
        break;
    case 3: /* two literals, one the word and one the place, brought on top if it is not */
        if (one_in(2)) {
            put(LITC(chance(1024)), 1);
            put(LITC(stored_cell()), 1);
        } else if (one_in(2)) {
            put(LITC(stored_cell()), 1);
            put(LITC(chance(1024)), 1);
            put(XCH, 0);
        } else {
            put(LITC(stored_cell()), 1);
            put(DUP, 1);
        }
        put(STD, -2);
        break;
    default:
        make_word(2);
        make_smaller();
        if (one_in(2))
            make_place();
        else
            put(LITC(stored_cell()), 1);
        put(STD, -2);
        break;
    }
}

/* Many words on the stack at once. */
void make_pile(void)
{
    unsigned words = 3 + below(one_in(30) ? 600 : 10), most = (MOST_SYLLABLES - code->made) / 6;
    words = words < most ? words : most;
    for (unsigned i = 0; i < words; i++)
        put(one_in(2) ? OPDC(any_of(&seg->numbers)) : LITC(chance(12)), 1);
    for (unsigned i = 1; i < words; i++)
        put(one_in(2) ? ADD : LSS, -1);
    put(LITC(stored_cell()), 1);
    put(STD, -2);
}
