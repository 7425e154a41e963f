/* The terminal: its modes, its keys and its size. It is put back as it was at every end. */
#ifndef TERMINAL_H
#define TERMINAL_H

#include <stddef.h>

enum {
    KEY_CTRL_D = 4,
    KEY_BACKSPACE = 8,
    KEY_CTRL_U = 21,
    KEY_ESCAPE = 27,
    KEY_DELETE = 127,
    KEY_END = 256, /* the end of input, or a signal to quit */
    KEY_REDRAW,    /* the window changed, or the program was continued */
    KEY_OTHER      /* a key of several bytes, such as an arrow */
};

/* Takes the terminal over; answers 0, or -1 where there is none. */
int terminal_open(void);

/* Gives it back. */
void terminal_close(void);

/* The next key: a byte, or one of the above. */
int terminal_key(void);

void terminal_size(int *rows, int *columns);

/* Writes all of it; a terminal that takes no more is the end of input. */
void terminal_write(const char *text, size_t length);

/* Ends as the signal to quit would have ended the program, if there was one. */
void terminal_die_of_signal(void);

#endif
