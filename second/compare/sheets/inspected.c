/* The two inspectors beside each other, and beside what the maker of the sheet knows. */
#include "sheets.h"
#include "../maker/chance.h"
#include "both_sheets.h"
#include "damage/clauses.h"
#include "damage/damage.h"
#include "edges.h"
#include "making/passing.h"

#include <stdio.h>

static struct segment seg;

static unsigned failed(uint64_t i, const char *name, const char *what)
{
    printf("compare: difference: sheets case %llu, %s: %s\n", (unsigned long long)i, name, what);
    return 1;
}

/* ---- the places that each number was given at */

enum { FIRST_NUMBER = 30, NUMBERS = 6, PLACES = MOST_SYLLABLES };
static bool place_seen[NUMBERS][PLACES];
/* Of 30 there is one place and of 32 there are three. */
static const unsigned places_wanted[NUMBERS] = {1, 20, 3, 20, 20, 20};

static void note_place(uint64_t number, uint64_t place)
{
    if (number >= FIRST_NUMBER)
        place_seen[number - FIRST_NUMBER][place] = true;
}

unsigned places_missing(void)
{
    unsigned missing = 0;
    for (unsigned i = 0; i < NUMBERS; i++) {
        unsigned seen = 0, highest = 0;
        for (unsigned j = 0; j < PLACES; j++)
            if (place_seen[i][j]) {
                seen++;
                highest = j;
            }
        printf("%u: places %u, the highest %u\n", FIRST_NUMBER + i, seen, highest);
        missing += seen < places_wanted[i];
    }
    return missing;
}

/* ---- one clause broken, or none */

static unsigned check_verdict(uint64_t i, const char *name, uint64_t number, uint64_t place)
{
    struct inspected v = both_inspect(&seg);
    if (v.difference != NULL)
        return failed(i, name, v.difference);
    if (v.number == number && v.place == place) {
        note_place(number, place);
        return 0;
    }
    char text[100];
    snprintf(text, sizeof text, "%llu at %llu, made for %llu at %llu", (unsigned long long)v.number,
             (unsigned long long)v.place, (unsigned long long)number, (unsigned long long)place);
    return failed(i, name, text);
}

/* Each clause once, then by chance; each eighth sheet passes. */
unsigned group_sheets(uint64_t count)
{
    unsigned failures = 0, listed = 0;
    list_clauses();
    for (uint64_t i = 0; i < count; i++) {
        if (i % 8 == 7) {
            struct wish wish = any_wish();
            make_segment(&seg, &wish);
            note_edges(&seg);
            failures += check_verdict(i, "passing", 0, 0);
            continue;
        }
        struct clause *broken = &clause[listed < clauses ? listed++ : chance(clauses)];
        uint64_t place = make_damaged(&seg, broken);
        failures += check_verdict(i, broken->name, broken->number, place);
    }
    return failures;
}
