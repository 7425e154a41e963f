/* Segments that pass, on both machines: step by step, and by one post. */
#include "sheets.h"
#include "../maker/chance.h"
#include "both_sheets.h"
#include "edges.h"
#include "making/passing.h"
#include "watch/ended.h"
#include "watch/watch.h"

#include <stdio.h>

static struct segment seg;

static unsigned failed(uint64_t i, const char *what)
{
    printf("compare: difference: segments case %llu: %s\n", (unsigned long long)i, what);
    return 1;
}

/* ---- the stops */

static uint64_t stops_posted[22];

unsigned stops_missing(void)
{
    static const unsigned stops[] = {0, 15, 17, 20, 21};
    unsigned missing = 0;
    for (unsigned i = 0; i < 5; i++) {
        printf("stop %2u: watched %llu, posted %llu\n", stops[i], (unsigned long long)stops_seen[stops[i]],
               (unsigned long long)stops_posted[stops[i]]);
        missing += stops_seen[stops[i]] == 0;
        missing += stops_posted[stops[i]] == 0;
    }
    return missing;
}

/* ---- the sizes of core in which our machine was watched */

enum { SIZES = 6, LEAST = 100 };
static const size_t sizes[SIZES] = {256, 1024, 4096, 16384, MOST - 1, MOST};
static uint64_t steps_watched[SIZES];

static void note_steps(uint64_t steps)
{
    unsigned i = 0;
    while (seg.st.length > sizes[i])
        i++;
    steps_watched[i] += steps;
}

unsigned sizes_all(void) { return SIZES; }

unsigned sizes_missing(void)
{
    unsigned missing = 0;
    for (unsigned i = 0; i < SIZES; i++) {
        printf("steps watched in cores up to %5zu words: %llu\n", sizes[i], (unsigned long long)steps_watched[i]);
        missing += steps_watched[i] < LEAST;
    }
    return missing;
}

/* ---- segments that pass */

/* A step of ours looks at the whole core, so a large core makes fewer of them. */
static uint64_t chance_budget(void)
{
    uint64_t most = 1500000 / (1000 + seg.st.length);
    return one_in(32) || most < 200 ? chance(most) : chance(200);
}

/* A post may go on for longer, at times for all that a budget can be. */
static uint64_t chance_post_budget(uint64_t budget)
{
    if (one_in(700))
        return 1000000;
    return one_in(16) ? chance(20000) : budget;
}

static unsigned post_segment(uint64_t i, uint64_t budget)
{
    run_begins(&seg);
    struct posted posted = both_post(&seg, budget, ROW);
    const char *what = posted.difference != NULL ? posted.difference : run_broken(&seg, posted.stop);
    if (what != NULL)
        return failed(i, what);
    stops_posted[posted.stop]++;
    return 0;
}

static const char *wrong(struct watched w)
{
    static char text[160];
    if (w.ours == NULL && w.second == NULL)
        return w.difference;
    snprintf(text, sizeof text, "our machine: %s; the second one: %s", w.ours != NULL ? w.ours : "well",
             w.second != NULL ? w.second : "well");
    return text;
}

unsigned group_passed(uint64_t count)
{
    uint64_t steps = 0, looping = 0;
    unsigned failures = 0;
    for (uint64_t i = 0; i < count; i++) {
        struct wish wish = any_wish();
        make_segment(&seg, &wish);
        note_edges(&seg);
        struct inspected v = both_inspect(&seg);
        if (v.difference != NULL || v.number != 0) {
            failures += failed(i, v.difference != NULL ? v.difference : "a segment that does not pass");
            continue;
        }
        uint64_t budget = chance_budget();
        struct watched w = watch_segment(&seg, budget);
        if (wrong(w) != NULL)
            failures += failed(i, wrong(w));
        steps += w.steps;
        note_steps(w.steps);
        looping += w.steps > seg.program.made;
        failures += post_segment(i, chance_post_budget(budget));
    }
    printf("segments: %llu steps of both machines watched, %llu segments looped\n", (unsigned long long)steps,
           (unsigned long long)looping);
    return failures;
}
