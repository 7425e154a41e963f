/* The run, written from paper 01 alone. */
#include "checks.h"
#include "syllable.h"

/* 5 is "budget over 1,000,000". */
#define BUDGET_LIMIT UINT64_C(1000000)

/* "A run answers the stop, the syllables completed (COM counts) and the state; 5 comes
   after 3." The checks hold for every later step, so they are made once. */
PART int run(uint64_t *core, size_t length, struct second_registers *g, uint64_t budget,
             uint64_t *completed, const struct second_watch *watch)
{
    *completed = 0;
    MUST(second_check_state(core, length, g));
    if (budget > BUDGET_LIMIT)
        return SECOND_BUDGET;
    struct machine m = {.core = core, .length = length, .g = *g, .watch = watch};
    int number = SECOND_WENT_ON;
    uint64_t done = 0;
    while (done < budget) {
        number = one_syllable(&m);
        if (number != SECOND_WENT_ON)
            break;
        done++;
    }
    *completed = number == SECOND_COMMUNICATE ? done + 1 : done;
    *g = m.g;
    return number;
}

int second_run(uint64_t *core, size_t length, struct second_registers *g, uint64_t budget,
               uint64_t *completed)
{
    return run(core, length, g, budget, completed, NULL);
}

int second_run_watched(uint64_t *core, size_t length, struct second_registers *g,
                       uint64_t budget, uint64_t *completed,
                       const struct second_watch *watch)
{
    return run(core, length, g, budget, completed, watch);
}
