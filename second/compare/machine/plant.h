/* A difference that is planted, to see that it is caught. */
#ifndef SECOND_PLANT_H
#define SECOND_PLANT_H

#include <stdbool.h>

enum plant {
    PLANT_NOTHING, PLANT_NUMBER, PLANT_REGISTER, PLANT_CORE, PLANT_COMPLETED,
    PLANT_VERDICT, PLANT_PLACE, PLANT_WATCH, PLANT_POST, PLANT_BOUNDS, PLANT_CAUSE, PLANT_TRACE, PLANTS
};
extern const char *const plant_names[PLANTS];

void plant(enum plant what);
/* True once: for the first case that can show it. */
bool planted(enum plant what);

#endif
