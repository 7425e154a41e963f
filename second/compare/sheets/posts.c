/* Posts that are refused: 4, 1, 3, 30 to 35, 5, in this order. */
#include "sheets.h"
#include "../maker/chance.h"
#include "both_sheets.h"
#include "damage/clauses.h"
#include "making/passing.h"

#include <stdio.h>

static struct segment seg;

static unsigned failed(uint64_t i, const char *what)
{
    printf("compare: difference: post case %llu: %s\n", (unsigned long long)i, what);
    return 1;
}

enum { REFUSALS = 37 };
static uint64_t refused[REFUSALS];

static const unsigned all_refusals[] = {4, 1, 3, 30, 31, 32, 33, 34, 35, 5};

unsigned group_posts(uint64_t count)
{
    unsigned failures = 0;
    for (uint64_t i = 0; i < count; i++) {
        size_t row_length = one_in(6) ? (one_in(2) ? chance(ROW) : ROW + 1 + chance(ROW - 1)) : ROW;
        uint64_t budget = one_in(6) ? 1000001 + (one_in(2) ? 0 : chance(UINT64_MAX - 1000001)) : chance(100);
        uint64_t expected = 0, place = 0;
        if (one_in(3)) {
            struct wish wish = any_wish();
            make_segment(&seg, &wish);
        } else {
            struct clause *broken = &clause[chance(clauses)];
            place = make_damaged(&seg, broken);
            expected = broken->number;
        }
        if (expected != 4 && expected != 1 && row_length != ROW) {
            expected = 3;
            place = 0;
        }
        if (expected == 0 && budget > 1000000)
            expected = 5;
        struct posted posted = both_post(&seg, budget, row_length);
        if (posted.difference != NULL)
            failures += failed(i, posted.difference);
        else if (posted.number != expected || posted.place != place)
            failures += failed(i, "not the number and place it was made for");
        else
            refused[posted.number]++;
    }
    for (unsigned i = 0; i < sizeof all_refusals / sizeof *all_refusals; i++) {
        printf("post refused with %2u: %llu\n", all_refusals[i], (unsigned long long)refused[all_refusals[i]]);
        if (refused[all_refusals[i]] == 0)
            failures += failed(all_refusals[i], "a refusal that was never met");
    }
    return failures;
}
