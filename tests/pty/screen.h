/* A terminal's screen: the few codes that the panel writes, and no other. */
#ifndef SCREEN_H
#define SCREEN_H

enum { MOST_ROWS = 60, MOST_COLUMNS = 200 };

struct screen {
    int rows, columns;
    int row, column;                       /* the cursor */
    char cell[MOST_ROWS][MOST_COLUMNS][5]; /* a char of UTF-8 each */
    int other, hidden;                     /* the other screen is shown; no cursor is */
    char code[32];                         /* an escape code so far, and its length */
    int coded;
    const char *wrong; /* the first thing that a screen of this size would not take, or NULL */
};

/* A blank screen; its size is kept. */
void screen_clear(struct screen *screen);

/* A byte of output. */
void screen_take(struct screen *screen, unsigned char byte);

/* The rows as lines with no spaces at their ends; valid till the next call. */
const char *screen_text(const struct screen *screen);

#endif
