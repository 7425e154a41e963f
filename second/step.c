/* The step, written from paper 01 alone. */
#include "checks.h"
#include "syllable.h"

/* "Order: 1, 2, 3, fetch (11), then as written above." */
PART int step(uint64_t *core, size_t length, struct second_registers *g,
              const struct second_watch *watch)
{
    MUST(second_check_state(core, length, g));
    struct machine m = {.core = core, .length = length, .g = *g, .watch = watch};
    int number = one_syllable(&m);
    *g = m.g;
    return number;
}

int second_step(uint64_t *core, size_t length, struct second_registers *g)
{
    return step(core, length, g, NULL);
}

int second_step_watched(uint64_t *core, size_t length, struct second_registers *g,
                        const struct second_watch *watch)
{
    return step(core, length, g, watch);
}
