/* Segments that would not pass, run all the same: the watch must see what each of them does. */
#ifndef SECOND_CONTROLS_H
#define SECOND_CONTROLS_H

unsigned group_controls(void);
unsigned controls_all(void);

#endif
