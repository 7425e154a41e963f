/* The screen put on the terminal, or printed. */
#ifndef PAINT_H
#define PAINT_H

#include "panel.h"

/* Lamps are '*' and '.', whatever the locale. */
void paint_ascii(void);

void paint_panel(const struct panel *panel);
void paint_question(const struct panel *panel, const char *question, const char *line);

/* Page by page, till all was shown or q, Esc or Ctrl-D came. */
void paint_help(void);

/* Prints the screen with no control codes; answers whether it could. */
int paint_once(const struct panel *panel);

#endif
