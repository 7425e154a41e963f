/* Parts of code that break the scan: what stands in a row, and how a row comes into good code. */
#ifndef SECOND_ROWS_H
#define SECOND_ROWS_H

#include "../making/segment.h"

/* What stands in a row beside plain syllables: items to be left, and calls by the kind of a cell. */
enum {
    WORD_ITEM = 0x10000, /* a literal or a number */
    LITERAL, NUMBER, PLACE,
    LITERAL_OF_NUMBER, LITERAL_OF_ARRAY, LITERAL_OF_CLOSED, LITERAL_PAST_TABLE,
    OPDC_OF_NUMBER, OPDC_OF_ARRAY, OPDC_OF_CLOSED, OPDC_PAST_TABLE,
    DESC_OF_NUMBER, DESC_OF_ARRAY, DESC_OF_CLOSED, DESC_PAST_TABLE,
    UNBUILT
};
enum { ROW_ROOM = 5 };

/* Put in where no item waits, or anywhere. */
enum where { EMPTY, ANYWHERE };

/* The last of a row is the syllable that breaks; 0, which is LITC 0, ends a shorter row. */
struct row {
    const char *name;
    enum where where;
    unsigned part[ROW_ROOM];
};

/* Operators over two words, then over one. */
struct named {
    const char *name;
    unsigned code;
};
enum { TWOS = 14, ONES = 6 };
extern const struct named twos[TWOS], ones[ONES];

#define COUNT(list) ((unsigned)(sizeof(list) / sizeof *(list)))

/* ---- rows.c */

/* The row as it is made. */
extern struct program made_row;
void begin_row(void);
/* The syllables of one part; false if the segment has no such cell. */
bool make_part(const struct segment *seg, unsigned part);
/* What an operator leaves over literals. */
void make_result(const struct segment *seg, unsigned code, bool two);
/* `items` is the most that the row has put on the stack before its last syllable. */
bool make_row(const struct segment *seg, const unsigned part[ROW_ROOM], unsigned *items);

/* A syllable of the code, often the first or the last one that serves. */
unsigned chance_point(const struct program *p, enum where where);
/* What follows the breaking syllable does not matter: it is moved on, cut off, filled up. */
bool insert_row(struct program *p, unsigned at);
void need_room(struct segment *seg, unsigned items);
bool put_row(struct segment *seg, const struct row *row, uint64_t *place);

#endif
