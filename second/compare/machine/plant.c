/* What is planted, until a case has it. */
#include "plant.h"

const char *const plant_names[PLANTS] = {"nothing", "number", "register", "core", "completed",
                                         "verdict", "place",  "watch",    "post", "bounds",   "cause", "trace"};

static enum plant waiting = PLANT_NOTHING;

void plant(enum plant what) { waiting = what; }

bool planted(enum plant what)
{
    if (waiting != what)
        return false;
    waiting = PLANT_NOTHING;
    return true;
}
