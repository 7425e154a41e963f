/* The panel's state, and what its keys do. Every number comes from the library. */
#ifndef PANEL_H
#define PANEL_H

#include <stddef.h>
#include <stdint.h>

#include "../include/fifty_five.h"

enum {
    PANEL_MOST_BYTES = FIFTY_FIVE_MOST_WORDS * FIFTY_FIVE_WORD_BYTES,
    PANEL_FILLED_WORDS = 4096, /* a shorter file is filled up with 0, as runone does */
    PANEL_NAME_ROOM = 4096, /* no longer name can be opened */
    PANEL_SAID_ROOM = 256
};

struct panel {
    uint8_t core[PANEL_MOST_BYTES];
    size_t length; /* of the core, in bytes */
    int exact;     /* a core file is not filled up */
    uint8_t row[FIFTY_FIVE_ROW_BYTES];
    uint8_t start[FIFTY_FIVE_ROW_BYTES]; /* the registers after a load */
    uint64_t completed;                  /* syllables, since the load */
    char file[PANEL_NAME_ROOM];
    char said[PANEL_SAID_ROOM]; /* what the last key did */
};

/* The starting registers of runone: R 1, S 31, the rest 0, empty or off. */
void panel_start(struct panel *panel);

uint64_t panel_register(const struct panel *panel, enum fifty_five_register which);
size_t panel_words(const struct panel *panel);

/*
 * Each says in panel->said what it did, or why nothing was changed.
 * A load and a check of the start answer whether all is well.
 */
int panel_load(struct panel *panel, const char *name);
int panel_check_start(struct panel *panel);
void panel_write(struct panel *panel, const char *name);
void panel_step(struct panel *panel);
void panel_run(struct panel *panel, const char *count);
void panel_set(struct panel *panel, const char *text);

/* Sixteen octal digits at most, or decimal digits up to 2^64 - 1; answers whether it is such a number. */
int read_octal(const char *text, uint64_t *number);
int read_decimal(const char *text, uint64_t *number);

/* Says a line; bytes that are not plain ASCII are shown as '?'. */
void panel_say(struct panel *panel, const char *format, ...) __attribute__((format(printf, 2, 3)));

#endif
