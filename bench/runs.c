/* The run on the loads, and the cost of a syllable in cores of three sizes. */
#include "bench.h"

#include <string.h>

enum { BUDGET = 1000000, LENGTH = 4096, ROUNDS = 15 };

static struct pair start, now;
static uint64_t budget;

/* Ours takes six-byte words in and gives them back within the call; that time is in it. */
static double run_ours(void)
{
    uint64_t completed = 0;
    memcpy(now.bytes, start.bytes, WORD * start.length);
    memcpy(now.row, start.row, ROW);
    double from = seconds();
    uint64_t number = fifty_five_run(now.bytes, WORD * start.length, now.row, ROW, budget, &completed);
    double took = seconds() - from;
    return number == FIFTY_FIVE_WENT_ON && completed == budget ? took : -1;
}

static double run_plain(void)
{
    uint64_t completed = 0;
    memcpy(now.words, start.words, sizeof(uint64_t) * start.length);
    now.g = start.g;
    double from = seconds();
    int number = second_run(now.words, start.length, &now.g, budget, &completed);
    double took = seconds() - from;
    return number == SECOND_WENT_ON && completed == budget ? took : -1;
}

/* Whether both machines run the whole budget and end in the same state; says why if not. */
static int same(const struct load *load, size_t length)
{
    load_lay(load, length, &start);
    now.length = length;
    budget = BUDGET;
    if (run_ours() < 0 || run_plain() < 0) {
        printf("bench: %s: a machine stopped before the budget was spent\n", load->name);
        return 0;
    }
    const char *difference = pair_difference(&now);
    if (difference != NULL)
        printf("bench: %s: the machines differ in %s\n", load->name, difference);
    return difference == NULL;
}

int time_loads(struct timed *rows)
{
    for (int i = 0; i < LOADS; i++) {
        if (!same(&loads[i], LENGTH))
            return -1;
        rows[i] = (struct timed){.name = loads[i].name, .unit = "syllables", .units = BUDGET};
        compare_speed(&rows[i], run_ours, run_plain);
    }
    return LOADS;
}

static double best(double (*run)(void), uint64_t syllables, double found)
{
    budget = syllables;
    double took = run();
    return took < found ? took : found;
}

/* A call's own cost, taking the core in and giving it back, is timed alone and taken off. */
int time_flat(struct flat rows[SIZES])
{
    static const size_t words[SIZES] = {SMALLEST, 4096, MOST};
    double ours[SIZES][2], plain[SIZES][2];
    for (int i = 0; i < SIZES; i++)
        for (int j = 0; j < 2; j++)
            ours[i][j] = plain[i][j] = 1e9;
    for (int round = 0; round < ROUNDS; round++)
        for (int i = 0; i < SIZES; i++) {
            load_lay(&loads[0], words[i], &start);
            for (int j = 0; j < 2; j++) {
                ours[i][j] = best(run_ours, j == 0 ? 0 : BUDGET, ours[i][j]);
                plain[i][j] = best(run_plain, j == 0 ? 0 : BUDGET, plain[i][j]);
            }
        }
    for (int i = 0; i < SIZES; i++)
        rows[i] = (struct flat){
            .words = words[i],
            .ours = (ours[i][1] - ours[i][0]) / BUDGET * 1e9,
            .plain = (plain[i][1] - plain[i][0]) / BUDGET * 1e9,
            .ours_call = ours[i][0] * 1e6,
            .plain_call = plain[i][0] * 1e6};
    return SIZES;
}
