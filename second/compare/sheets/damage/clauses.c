/* The list of clauses, and segments that break one of them. */
#include "clauses.h"
#include "../../maker/chance.h"
#include "../making/layout.h"
#include "../making/passing.h"

#include <stdio.h>
#include <stdlib.h>

struct clause clause[MOST_CLAUSES];
unsigned clauses;

struct clause *add_clause(unsigned number, const char *name, spoil *how, unsigned which)
{
    struct clause *c = &clause[clauses++];
    *c = (struct clause){.number = number, .spoil = how, .which = which};
    snprintf(c->name, sizeof c->name, "%u: %s", number, name);
    return c;
}

/* Broken too, but seen after the first; not where both are of the code, whose syllables move. */
static const struct clause *chance_later(const struct clause *broken)
{
    const struct clause *later = &clause[chance(clauses)];
    bool fits = later->number > broken->number && later->wants == NULL && !broken->of_code;
    return fits && one_in(4) ? later : NULL;
}

static bool try_damaged(struct segment *seg, const struct clause *broken, const struct clause *later,
                        uint64_t *place)
{
    struct wish wish = any_wish();
    uint64_t unseen;
    if (broken->wants != NULL)
        broken->wants(&wish, broken->which);
    make_code(seg, &wish);
    if (later != NULL && later->of_code && !later->spoil(seg, later->which, &unseen))
        return false;
    if (broken->of_code && !broken->spoil(seg, broken->which, place))
        return false;
    if (!make_layout(seg, &wish))
        return false;
    if (later != NULL && !later->of_code && !later->spoil(seg, later->which, &unseen))
        return false;
    if (!broken->of_code && !broken->spoil(seg, broken->which, place))
        return false;
    write_sheet(seg);
    return true;
}

uint64_t make_damaged(struct segment *seg, struct clause *broken)
{
    uint64_t place = 0;
    for (unsigned tries = 0; !try_damaged(seg, broken, chance_later(broken), &place); tries++)
        if (tries == 100000) {
            printf("compare: %s: no segment lends itself to it\n", broken->name);
            exit(1);
        }
    broken->reached++;
    return place;
}

unsigned clauses_all(void) { return clauses; }

unsigned clauses_missing(void)
{
    unsigned missing = 0;
    for (unsigned i = 0; i < clauses; i++) {
        printf("%-72s%8llu\n", clause[i].name, (unsigned long long)clause[i].reached);
        missing += clause[i].reached == 0;
    }
    return missing;
}
