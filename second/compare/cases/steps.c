/* Steps and runs by chance. */
#include "cases.h"
#include "../machine/both.h"
#include "../machine/plant.h"
#include "../maker/chance.h"
#include "../maker/programs.h"
#include "../maker/states.h"
#include "../reached/causes.h"
#include "../reached/pairs.h"
#include "../why/why.h"

#include <stdio.h>

static struct state st;

/* A failure is printed with what finds it again. */
static unsigned failed(const char *group, uint64_t number, const char *operator, const char *what)
{
    printf("compare: difference: %s case %llu, %s: %s\n", group, (unsigned long long)number, operator,
           what);
    return 1;
}

/* The stop must be one that the paper gives to the syllable, for a cause that the paper names. */
static unsigned check_stop(const char *group, uint64_t i, enum operation operation, enum cause cause, uint64_t number)
{
    if (planted(PLANT_CAUSE))
        cause = cause == NO_CAUSE ? OTHERS : NO_CAUSE;
    if (!pair_possible(operation, number))
        return failed(group, i, operation_name(operation), "a stop that paper 01 does not give it");
    if (cause_number(cause) != (number == 17 ? 0 : number))
        return failed(group, i, operation_name(operation), "a stop that is not its cause's");
    if (cause != NO_CAUSE && !cause_possible(cause, operation))
        return failed(group, i, operation_name(operation), "a cause that paper 01 does not give it");
    pair_count(operation, number);
    cause_count(cause, operation);
    return 0;
}

unsigned group_step(uint64_t count)
{
    unsigned failures = 0;
    for (uint64_t i = 0; i < count; i++) {
        chance_state(&st);
        enum operation operation = operation_of(&st);
        enum cause cause = cause_of(&st);
        struct verdict v = both_step(&st);
        if (v.difference != NULL)
            failures += failed("step", i, operation_name(operation), v.difference);
        else
            failures += check_stop("step", i, operation, cause, v.number);
    }
    return failures;
}

/* A program by chance, or one that starts in any state; now and then with all the budget. */
unsigned group_run(uint64_t count)
{
    unsigned failures = 0;
    for (uint64_t i = 0; i < count; i++) {
        if (chance(4) == 0)
            chance_state(&st);
        else
            chance_program(&st);
        uint64_t budget = chance(1024) == 0 ? 1000000 : chance(4) == 0 ? chance(6) : chance(300);
        struct verdict v = both_run(&st, budget);
        if (v.difference != NULL)
            failures += failed("run", i, "the last syllable", v.difference);
        else if (v.number != 0 && v.number != 17)
            failures += check_stop("run", i, operation_of(&st), cause_of(&st), v.number);
        if (v.completed > budget)
            failures += failed("run", i, "the count", "more syllables than the budget");
    }
    return failures;
}
