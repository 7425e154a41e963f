/* MKS and XIT. */
#ifndef SECOND_WHY_MARKS_H
#define SECOND_WHY_MARKS_H

#include "look.h"

enum cause mark_stack(struct look *l);
enum cause leave(const struct look *l);

#endif
