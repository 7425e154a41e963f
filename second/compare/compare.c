/*
 * compare COUNT SEED [--plant WHAT]: the cabinet beside the second machine, on stored cases and on
 * COUNT cases by chance, and on COUNT/4 sheets and as many segments. Ends with status 0 if they agree
 * everywhere and every reachable pair of operator and stop, every cause of a stop, every clause of the
 * inspector and every stop of a passed segment was reached.
 */
#include "cases/cases.h"
#include "machine/plant.h"
#include "maker/chance.h"
#include "reached/causes.h"
#include "reached/pairs.h"
#include "sheets/damage/clauses.h"
#include "sheets/edges.h"
#include "sheets/sheets.h"
#include "sheets/watch/controls.h"

#include <stdio.h>
#include <stdlib.h>
#include <string.h>

static int usage(void)
{
    fprintf(stderr, "compare COUNT SEED [--plant WHAT], WHAT one of:");
    for (unsigned i = 0; i < PLANTS; i++)
        fprintf(stderr, " %s", plant_names[i]);
    fprintf(stderr, "\n");
    return 2;
}

static bool read_number(const char *text, uint64_t *number)
{
    char *end;
    *number = strtoull(text, &end, 10);
    return *text != '\0' && *end == '\0';
}

/* One planted difference: the next case that can show it must be found to differ. With `nothing` none may. */
static bool read_plant(const char *what)
{
    for (unsigned i = 0; i < PLANTS; i++)
        if (strcmp(what, plant_names[i]) == 0) {
            plant((enum plant)i);
            return true;
        }
    return false;
}

static unsigned report(const char *group, uint64_t count, unsigned failures)
{
    printf("compare: %s: %s: %llu checked, %u failures\n", failures == 0 ? "ok" : "FAILED", group,
           (unsigned long long)count, failures);
    return failures;
}

static unsigned compare_machines(uint64_t count, uint64_t eighth)
{
    unsigned failures = report("run", 2 * eighth, group_run(2 * eighth));
    failures += report("step", count - 4 * eighth, group_step(count - 4 * eighth));
    failures += report("files", eighth, group_files(eighth));
    failures += report("malformed", eighth, group_malformed(eighth));
    return failures + report("stored cases", stored_all(), group_stored());
}

static unsigned compare_sheets(uint64_t eighth)
{
    unsigned failures = report("sheets", 2 * eighth, group_sheets(2 * eighth));
    failures += report("sheets changed anywhere", eighth, group_changed(eighth));
    failures += report("segments that pass", 2 * eighth, group_passed(2 * eighth));
    failures += report("controls of the watch", controls_all(), group_controls());
    failures += report("posts", eighth, group_posts(eighth));
    failures += report("hand-out", eighth, group_hand_out(eighth));
    failures += report("stored sheets", stored_sheets_all(), group_stored_sheets());
    return failures + report("neighbouring arrays", neighbours_all(), group_neighbours());
}

/* What had to be reached, a cause in one of 10,000 cases. A few cases reach too little, so a plant is
   not judged by it. */
static unsigned report_reached(uint64_t count)
{
    unsigned missing = report("pairs of operator and stop", pairs_all(), pairs_missing());
    missing += report("causes of a stop", causes_all(), causes_missing(count / 10000));
    missing += report("clauses of the inspector", clauses_all(), clauses_missing());
    missing += report("numbers with enough places", 6, places_missing());
    missing += report("bounds that pass", edges_all(), edges_missing());
    missing += report("stops of segments", 10, stops_missing());
    return missing + report("sizes of core, watched", sizes_all(), sizes_missing());
}

int main(int argc, char **argv)
{
    uint64_t count, seed;
    if (argc < 3 || !read_number(argv[1], &count) || !read_number(argv[2], &seed))
        return usage();
    if (argc != 3 && (argc != 5 || strcmp(argv[3], "--plant") != 0 || !read_plant(argv[4])))
        return usage();
    bool differences_only = argc == 5;
    uint64_t eighth = count / 8;
    chance_seed(seed);
    unsigned failures = compare_machines(count, eighth) + compare_sheets(eighth);
    unsigned missing = report_reached(count);
    return failures + (differences_only ? 0 : missing) != 0;
}
