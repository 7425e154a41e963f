/* The panel as lines of text. */
#ifndef SCREEN_H
#define SCREEN_H

#include "panel.h"

enum {
    SCREEN_ROWS = 24,
    SCREEN_COLUMNS = 80,
    SCREEN_MOST_COLUMNS = 160
};

/* Lamps are held as these two, so that a line has a char a column. */
enum { LAMP_ON = 1, LAMP_OFF = 2 };

struct screen {
    int rows;
    char line[SCREEN_ROWS][SCREEN_MOST_COLUMNS + 1];
};

/* The lamps, the syllables, the stack and what was said: all rows but the last, that of the keys. */
void screen_lamps(struct screen *screen, const struct panel *panel);

/* The same in few and short lines, for a small window. */
void screen_small(struct screen *screen, const struct panel *panel, int rows, int columns);

/* The keys and what is shown. */
void screen_help(struct screen *screen);

/* The bottom row: the keys, and the same for a small window. */
extern const char screen_keys[];
extern const char screen_few_keys[];

#endif
