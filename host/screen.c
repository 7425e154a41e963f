#include "screen.h"

#include <inttypes.h>
#include <stdarg.h>
#include <stdio.h>
#include <string.h>

#include "names.h"
#include "words.h"

const char screen_keys[] = " s step   r run   = set register   l load   w write   ? help   q quit";
const char screen_few_keys[] = "s r = l w ? q";

/* Where the columns start. */
enum { AT_NAME = 1, AT_LAMPS = 11, AT_RIGHT = 46, AT_RIGHT_LAMPS = 53, AT_WORD = 11, AT_MEANING = 33 };

/* Writes at a column of a line, and fills up with spaces before it. */
static void put(char *line, int column, const char *format, ...) __attribute__((format(printf, 3, 4)));
static void put(char *line, int column, const char *format, ...)
{
    size_t at = strlen(line);
    va_list rest;

    for (; at < (size_t)column; at++)
        line[at] = ' ';
    va_start(rest, format);
    vsnprintf(line + at, SCREEN_MOST_COLUMNS + 1 - at, format, rest);
    va_end(rest);
}

/* A register's bits, the highest first, in threes: an octal digit each. */
static void put_lamps(char *line, int column, uint64_t word, int bits)
{
    put(line, column, "%s", "");
    for (int bit = bits; bit-- > 0;)
        put(line, 0, "%c%s", word >> bit & 1 ? LAMP_ON : LAMP_OFF, bit > 0 && bit % 3 == 0 ? " " : "");
}

/* The octal digits, each under the middle lamp of its three. */
static void put_digits(char *line, int column, uint64_t word, int bits)
{
    for (int bit = bits; bit > 0; column += 4)
        put(line, column + 1, "%c", (char)('0' + (word >> (bit -= 3) & 7)));
}

static char *next_line(struct screen *screen)
{
    char *line = screen->line[screen->rows++];

    line[0] = 0;
    return line;
}

/* ---- the rows of the whole panel */

/* A name's end says more than its start. */
static void put_title(struct screen *screen, const struct panel *panel)
{
    char *line = next_line(screen);
    size_t length = strlen(panel->file);
    const char *end = length > 30 ? panel->file + length - 27 : panel->file;

    put(line, AT_NAME, "B 5500  %s", length > 30 ? "..." : "");
    for (; *end; end++)
        put(line, 0, "%c", *end < ' ' || *end > '~' ? '?' : *end);
    put(line, AT_RIGHT, "%zu word%s  %" PRIu64 " completed", panel_words(panel), panel_words(panel) == 1 ? "" : "s",
        panel->completed);
}

static void put_word_rows(struct screen *screen, const struct panel *panel, const char *name,
                          enum fifty_five_register which)
{
    uint64_t word = panel_register(panel, which);
    char *line = next_line(screen);

    put(line, AT_NAME, "%s full %c", name, panel_register(panel, which + 1) ? LAMP_ON : LAMP_OFF);
    put_lamps(line, AT_LAMPS, word, 48);
    put_digits(next_line(screen), AT_LAMPS, word, 48);
}

static void put_short(char *line, int column, int lamps, const struct panel *panel, const char *name,
                      enum fifty_five_register which, int bits)
{
    uint64_t word = panel_register(panel, which);

    put(line, column, "%s", name);
    put_lamps(line, lamps, word, bits);
    put(line, 0, "  %0*" PRIo64, (bits + 2) / 3, word);
}

static void put_short_rows(struct screen *screen, const struct panel *panel)
{
    char *line = next_line(screen);

    put_short(line, AT_NAME, AT_LAMPS, panel, "C", FIFTY_FIVE_C, 15);
    put_short(line, AT_RIGHT, AT_RIGHT_LAMPS, panel, "L", FIFTY_FIVE_L, 2);
    line = next_line(screen);
    put_short(line, AT_NAME, AT_LAMPS, panel, "S", FIFTY_FIVE_S, 15);
    put_short(line, AT_RIGHT, AT_RIGHT_LAMPS, panel, "SALF", FIFTY_FIVE_SALF, 1);
    line = next_line(screen);
    put_short(line, AT_NAME, AT_LAMPS, panel, "F", FIFTY_FIVE_F, 15);
    put_short(line, AT_RIGHT, AT_RIGHT_LAMPS, panel, "MSFF", FIFTY_FIVE_MSFF, 1);
    line = next_line(screen);
    put_short(line, AT_NAME, AT_LAMPS, panel, "R", FIFTY_FIVE_R, 9);
    put(line, AT_RIGHT, "64R");
    put(line, AT_RIGHT_LAMPS, "%05" PRIo64, panel_register(panel, FIFTY_FIVE_R) * 64);
}

/* ---- syllables */

static unsigned syllable_of(uint64_t word, unsigned place)
{
    return (unsigned)word_field(word, place * 12, place * 12 + 11);
}

/* The syllable at C and L in words; answers whether C is in core. */
static int next_syllable(const struct panel *panel, char *text, size_t room)
{
    size_t at = panel_register(panel, FIFTY_FIVE_C);
    unsigned place = (unsigned)panel_register(panel, FIFTY_FIVE_L);

    if (at >= panel_words(panel)) {
        snprintf(text, room, "none: C is outside core");
        return 0;
    }
    syllable_text(syllable_of(word_at(panel->core, at), place), text, room);
    return 1;
}

static void put_syllables(struct screen *screen, const struct panel *panel)
{
    uint64_t at = panel_register(panel, FIFTY_FIVE_C), place = panel_register(panel, FIFTY_FIVE_L);
    char text[32], *line = next_line(screen);
    int column = AT_WORD;

    put(line, AT_NAME, "%s", "next");
    if (!next_syllable(panel, text, sizeof text)) {
        put(line, AT_WORD, "%s", text);
        next_line(screen);
        return;
    }
    put(line, AT_WORD, "%s", text);
    line = next_line(screen);
    put(line, AT_NAME, "at %05" PRIo64, at);
    for (unsigned i = 0; i < 4; i++, column += 17) {
        unsigned syllable = syllable_of(word_at(panel->core, at), i);

        syllable_text(syllable, text, sizeof text);
        put(line, column - 1, "%s%04o %s%s", i == place ? "[" : " ", syllable, text, i == place ? "]" : "");
    }
}

/* ---- the stack */

static void put_stacked(char *line, const char *name, uint64_t word)
{
    char meaning[80];

    word_meaning(word, meaning, sizeof meaning);
    put(line, AT_NAME, "%s", name);
    put(line, AT_WORD, "%04" PRIo64 " %04" PRIo64 " %04" PRIo64 " %04" PRIo64, word >> 36, word >> 24 & 07777,
        word >> 12 & 07777, word & 07777);
    put(line, AT_MEANING, "%s", meaning);
}

/* The top words, the topmost first: A and B if full, then core from S down. */
static void put_stack(struct screen *screen, const struct panel *panel, int last)
{
    uint64_t at = panel_register(panel, FIFTY_FIVE_S);
    char name[32];

    put(next_line(screen), AT_NAME, "%s", "stack, top first");
    if (panel_register(panel, FIFTY_FIVE_A_FULL))
        put_stacked(next_line(screen), "A", panel_register(panel, FIFTY_FIVE_A));
    if (panel_register(panel, FIFTY_FIVE_B_FULL))
        put_stacked(next_line(screen), "B", panel_register(panel, FIFTY_FIVE_B));
    if (at >= panel_words(panel)) {
        put(next_line(screen), AT_NAME, "%s", "S is outside core");
        at = 0;
    }
    for (; at > 0 && screen->rows < last; at--) {
        snprintf(name, sizeof name, "%05" PRIo64, at);
        put_stacked(next_line(screen), name, word_at(panel->core, at));
    }
    while (screen->rows < last)
        next_line(screen);
}

/* How much of a text goes in a row: all, or up to the last space in it. */
static int fold(const char *text, int columns)
{
    int length = (int)strlen(text), at = columns;

    if (length <= columns)
        return length;
    while (at > 0 && text[at] != ' ')
        at--;
    return at > 0 ? at : columns;
}

/* What is left for the next rows. */
static const char *past_fold(const char *text, int columns)
{
    text += fold(text, columns);
    return text + (*text == ' ');
}

/* What was said takes two rows if one is too short. */
static void put_said_below(struct screen *screen, const char *said)
{
    const int most = SCREEN_COLUMNS - AT_NAME;
    char *line = next_line(screen);

    if (*past_fold(said, most)) {
        put(line, AT_NAME, "%.*s", fold(said, most), said);
        said = past_fold(said, most);
    }
    put(next_line(screen), AT_NAME, "%.*s", most, said);
}

void screen_lamps(struct screen *screen, const struct panel *panel)
{
    screen->rows = 0;
    put_title(screen, panel);
    next_line(screen);
    put_word_rows(screen, panel, "A", FIFTY_FIVE_A);
    put_word_rows(screen, panel, "B", FIFTY_FIVE_B);
    next_line(screen);
    put_short_rows(screen, panel);
    next_line(screen);
    put_syllables(screen, panel);
    next_line(screen);
    put_stack(screen, panel, SCREEN_ROWS - 3);
    put_said_below(screen, panel->said);
}

/* ---- a small window */

/* What was said comes before the rest: folded over the last rows, it leaves one row above, if any. */
static void put_said(struct screen *screen, const struct panel *panel, int rows, int columns)
{
    const char *said = panel->said;
    int folds = 0;

    for (const char *at = said; *at; at = past_fold(at, columns))
        folds++;
    if (screen->rows > rows - folds)
        screen->rows = rows > folds + 1 ? rows - folds : rows > 1;
    for (; *said && screen->rows < rows; said = past_fold(said, columns))
        put(next_line(screen), 0, "%.*s", fold(said, columns), said);
}

void screen_small(struct screen *screen, const struct panel *panel, int rows, int columns)
{
    char text[32];
    const uint64_t a = panel_register(panel, FIFTY_FIVE_A), b = panel_register(panel, FIFTY_FIVE_B);
    const uint64_t s = panel_register(panel, FIFTY_FIVE_S), f = panel_register(panel, FIFTY_FIVE_F);
    const uint64_t c = panel_register(panel, FIFTY_FIVE_C), l = panel_register(panel, FIFTY_FIVE_L);
    const uint64_t r = panel_register(panel, FIFTY_FIVE_R);
    const uint64_t salf = panel_register(panel, FIFTY_FIVE_SALF), msff = panel_register(panel, FIFTY_FIVE_MSFF);
    const char *a_mark = panel_register(panel, FIFTY_FIVE_A_FULL) ? "full " : "empty";
    const char *b_mark = panel_register(panel, FIFTY_FIVE_B_FULL) ? "full " : "empty";

    screen->rows = 0;
    next_syllable(panel, text, sizeof text);
    put(next_line(screen), 0, "window %dx%d: lamps need %dx%d", columns, rows + 1, SCREEN_COLUMNS,
        SCREEN_ROWS);
    put(next_line(screen), 0, "next %s", text);
    put(next_line(screen), 0, "A %s %016" PRIo64, a_mark, a);
    put(next_line(screen), 0, "B %s %016" PRIo64, b_mark, b);
    put(next_line(screen), 0, "C %05" PRIo64 " L %" PRIo64 " R %03" PRIo64, c, l, r);
    put(next_line(screen), 0, "S %05" PRIo64 " F %05" PRIo64, s, f);
    put(next_line(screen), 0, "SALF %" PRIo64 " MSFF %" PRIo64, salf, msff);
    put(next_line(screen), 0, "completed %" PRIu64, panel->completed);
    put_said(screen, panel, rows < SCREEN_ROWS ? rows : SCREEN_ROWS, columns);
}

/* ---- help */

void screen_help(struct screen *screen)
{
    static const char *const text[] = {
        " The cabinet's panel: a word-mode B 5500, a lamp a bit.",
        "",
        " s, space   one syllable",
        " r          run; the count is decimal, at most 1000000",
        " =          set a register: NAME VALUE, the value in octal",
        "            A and B: a value fills it; also A empty, A full",
        "            SALF and MSFF: 0 or 1, off or on",
        " l          load a core file; Enter alone loads the same file again",
        " w          write the core to a file, whole or not at all",
        " ?          this page",
        " q          quit; so do Ctrl-C and Ctrl-D",
        "",
        " In a question: Enter answers it, Esc leaves it, Ctrl-U clears the line.",
        "",
        " Bit 0, the flag, is the leftmost lamp. Three lamps are an octal digit.",
        " Words, addresses and syllables are octal; counts, sizes and values decimal.",
        " [ ] marks the syllable that a step does next, at C and L.",
        " The stack is core up to S, then B if full, then A if full.",
        " In it, data and program are descriptors, with the address after 'at'.",
        " Every number but 0 and 17 leaves registers and core as they were before",
        " the syllable that gave it.",
    };

    screen->rows = 0;
    for (size_t i = 0; i < sizeof text / sizeof text[0]; i++)
        put(next_line(screen), 0, "%s", text[i]);
}
