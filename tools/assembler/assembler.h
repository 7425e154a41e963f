/* A segment as its source says it, and the parts of the assembler. */
#ifndef ASSEMBLER_H
#define ASSEMBLER_H

#include <stdbool.h>
#include <stdint.h>

enum {
    MOST_CORE = 32768,
    MOST_CELLS = 1024, /* a literal of ten bits names no more */
    MOST_LITERAL = 1023,
    MOST_SYLLABLES = 4096,
    MOST_LABELS = 4096
};

/* The kinds of a sheet's records. */
enum kind { CLOSED = 0, CODE = 1, STACK = 2, NUMBER_CELL = 3, ARRAY_CELL = 4, TABLE = 5 };

/* The last two bits of a syllable. */
enum { LITC = 0, OPERATOR = 1, OPDC = 2, DESC = 3 };

enum { NOP = 00055 };

/* What the first ten bits of a syllable wait for until all lines are read. */
enum wait { NOTHING, CELL_OF_NAME, SIZE_OF_NAME, FORWARD_TO_LABEL, BACK_TO_LABEL };

struct syllable {
    unsigned line, bits;
    enum wait wait;
    const char *name;
};

struct label {
    unsigned line, at; /* at: the syllables before it */
    const char *name;
};

/* Of the code, the stack and the table. Line 0: not given. */
struct area {
    unsigned line, first, count;
};

struct cell {
    enum kind kind;
    unsigned line;
    const char *name;               /* or NULL */
    unsigned address, size, filled; /* of an array */
};

extern struct segment {
    unsigned core; /* its length, or 0 */
    uint64_t word[MOST_CORE];
    unsigned given[MOST_CORE]; /* the line that gives a word, or 0 */
    bool raw[MOST_CORE];       /* given by a 'word' line, which wins over others */
    struct area code, stack, table;
    struct cell cell[MOST_CELLS];
    struct syllable syllable[MOST_SYLLABLES];
    unsigned syllables, last; /* last: where the last instruction begins */
    struct label label[MOST_LABELS];
    unsigned labels;
} segment;

/* source.c: the lines of the source, word by word. An error ends the program. */
void open_source(const char *path);
bool next_line(void);
unsigned line_now(void);
const char *look(void); /* the next word of the line; NULL at its end */
bool look_is(const char *text);
bool look_is_number(void);
char *take(const char *what); /* the next word, taken; `what` names it if it is missing */
unsigned take_number(const char *what, unsigned least, unsigned most);
uint64_t take_word(void);
uint64_t take_operand(void);
void check_name(const char *name);
_Noreturn void fail(unsigned line, const char *format, ...);

/* operators.c */
bool operator_code(const char *name, unsigned *bits);
const char *operator_name(unsigned bits); /* NULL if it is not built */

/* cells.c: what is in core. Answers false if the line starts with no such word. */
bool parse_part(void);
struct cell *cell_named(const char *name);
void give(unsigned line, unsigned address, uint64_t word);

/* code.c: labels and instructions. finish.c: when all lines are read. */
void parse_code(void);
void finish_code(void);

/* files.c: answers false, having said why, if it wrote nothing. */
bool write_files(const char *source, const char *core_name, const char *sheet_name);

/* list.c */
void list(void);

#endif
