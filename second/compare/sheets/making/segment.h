/* A segment: code, its sheet and its core, and what its maker knows of it. */
#ifndef SECOND_SEGMENT_H
#define SECOND_SEGMENT_H

#include "../../machine/state.h"

enum { MOST_RECORDS = 1027, SHEET_ROOM = 6 * 1100, MOST_CELLS = 1024, MOST_SYLLABLES = 4096 };
enum { CLOSED_CELL = 0, NUMBER_CELL = 3, ARRAY_CELL = 4 };

/* "kind, 0, first (2 bytes), count (2 bytes)" */
struct record {
    unsigned kind, zero, first, count;
};

struct cells {
    unsigned cell[MOST_CELLS], count;
};

/* Code as it is made: each syllable with the count of items that meets it. */
struct program {
    unsigned syllable[MOST_SYLLABLES], items_before[MOST_SYLLABLES + 1];
    unsigned made, items, deepest;
    struct branch {
        unsigned at, literal; /* the branch, and the literal that it takes */
        bool open;            /* forward, its target still to be chosen */
    } branch[MOST_SYLLABLES];
    unsigned branches;
    bool wild; /* may stop 15, 20 or 21 at any time */
};

enum area { NO_AREA, CODE_AREA, STACK_AREA, TABLE_AREA, STORE_AREA };

/* What a case asks of a segment before it is made. */
struct wish {
    unsigned cell_9;        /* its kind */
    enum area first, last;  /* from word 0 on; up to word 32,767 */
    bool small;             /* few words of core */
    bool longest;           /* 4,096 syllables */
    bool most_records;      /* 1,024 cells, each with a record of its own */
};

struct segment {
    struct state st; /* the registers are those of the start */
    unsigned table, kind[MOST_CELLS], size[MOST_CELLS];
    struct cells numbers, arrays, closed;
    unsigned counters; /* the first of `numbers` are left to the loops */
    struct program program;
    unsigned room;     /* d */
    unsigned store_first, store_words; /* where the arrays are */
    struct record record[MOST_RECORDS];
    unsigned records;
    uint8_t sheet[SHEET_ROOM];
    size_t sheet_length, core_length; /* in bytes, as they are handed over */
};

#endif
