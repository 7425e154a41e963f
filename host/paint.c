#include "paint.h"

#include <stdio.h>
#include <stdlib.h>
#include <string.h>
#include <strings.h>

#include "screen.h"
#include "terminal.h"

/* A frame goes out in one write, so that it does not flicker. */
enum { FRAME_ROOM = (SCREEN_ROWS + 1) * (3 * SCREEN_MOST_COLUMNS + 32) + 64 };

struct frame {
    size_t length;
    char text[FRAME_ROOM];
};

static int ascii;

void paint_ascii(void)
{
    ascii = 1;
}

/* Circles where the environment's locale says UTF-8. */
static int circles(void)
{
    const char *const names[] = {"LC_ALL", "LC_CTYPE", "LANG"};
    const char *locale = "", *dot;

    for (size_t i = 0; i < sizeof names / sizeof names[0] && !*locale; i++)
        locale = getenv(names[i]) ? getenv(names[i]) : "";
    dot = strchr(locale, '.');
    return !ascii && dot && (strncasecmp(dot, ".UTF-8", 6) == 0 || strncasecmp(dot, ".utf8", 5) == 0);
}

static void add(struct frame *frame, const char *text)
{
    size_t length = strlen(text);

    if (length > sizeof frame->text - frame->length)
        return;
    memcpy(frame->text + frame->length, text, length);
    frame->length += length;
}

static void add_line(struct frame *frame, const char *line, int columns)
{
    const char *on = circles() ? "\xe2\x97\x8f" : "*", *off = circles() ? "\xe2\x97\x8b" : ".";

    for (; *line && columns > 0; line++, columns--) {
        char plain[2] = {*line, 0};
        add(frame, *line == LAMP_ON ? on : *line == LAMP_OFF ? off : plain);
    }
}

/* The start of a row, and a clear from there. */
static void add_place(struct frame *frame, int row, const char *clear)
{
    char place[32];

    snprintf(place, sizeof place, "\033[%d;1H%s", row, clear);
    add(frame, place);
}

/* A row is cleared before it is written: at the last column a clear would take the last char. */
static void add_row(struct frame *frame, int row, const char *line, int columns)
{
    add_place(frame, row, "\033[K");
    add_line(frame, line, columns);
}

/* The lines from the top, and one in the bottom row; the cursor is left there if it is a question. */
static void show(const struct screen *screen, const char *bottom, int question)
{
    static struct frame frame;
    int rows, columns;

    terminal_size(&rows, &columns);
    frame.length = 0;
    add(&frame, "\033[?25l");
    for (int i = 0; i < screen->rows && i < rows - 1; i++)
        add_row(&frame, i + 1, screen->line[i], columns);
    if (screen->rows < rows - 1)
        add_place(&frame, screen->rows + 1, "\033[J");
    add_row(&frame, rows, bottom, columns);
    if (question)
        add(&frame, "\033[?25h");
    terminal_write(frame.text, frame.length);
}

static int is_small(int rows, int columns)
{
    return rows < SCREEN_ROWS || columns < SCREEN_COLUMNS;
}

static void lay_out(struct screen *screen, const struct panel *panel)
{
    int rows, columns;

    terminal_size(&rows, &columns);
    if (is_small(rows, columns))
        screen_small(screen, panel, rows - 1, columns < SCREEN_MOST_COLUMNS ? columns : SCREEN_MOST_COLUMNS);
    else
        screen_lamps(screen, panel);
}

void paint_panel(const struct panel *panel)
{
    struct screen screen;
    const char *bottom = screen_keys;
    int rows, columns;

    terminal_size(&rows, &columns);
    lay_out(&screen, panel);
    if (is_small(rows, columns))
        bottom = rows == 1 ? panel->said : screen_few_keys;
    show(&screen, bottom, 0);
}

/* A long line shows its end; bytes that are not plain ASCII show as '?'. */
void paint_question(const struct panel *panel, const char *question, const char *line)
{
    struct screen screen;
    char bottom[SCREEN_MOST_COLUMNS + 1];
    int rows, columns;
    size_t asked, room;

    terminal_size(&rows, &columns);
    lay_out(&screen, panel);
    room = (size_t)(columns < SCREEN_MOST_COLUMNS ? columns : SCREEN_MOST_COLUMNS) - 1;
    if (strlen(question) + 8 > room)
        question = "? ";
    asked = strlen(question) < room ? strlen(question) : room;
    if (strlen(line) > room - asked)
        line += strlen(line) - (room - asked);
    snprintf(bottom, sizeof bottom, "%.*s%s", (int)asked, question, line);
    for (char *at = bottom; *at; at++)
        if (*at < ' ' || *at > '~')
            *at = '?';
    show(&screen, bottom, 1);
}

void paint_help(void)
{
    struct screen help, page;
    int key = KEY_REDRAW, from = 0, rows, columns;

    screen_help(&help);
    while (from < help.rows && key != KEY_END) {
        terminal_size(&rows, &columns);
        for (page.rows = 0; page.rows < rows - 1 && from + page.rows < help.rows; page.rows++)
            memcpy(page.line[page.rows], help.line[from + page.rows], sizeof page.line[0]);
        if (page.rows == 0)
            return;
        show(&page, from + page.rows < help.rows ? " any key: more" : " any key: back", 0);
        key = terminal_key();
        if (key == 'q' || key == KEY_ESCAPE || key == KEY_CTRL_D)
            return;
        if (key != KEY_REDRAW)
            from += page.rows;
    }
}

int paint_once(const struct panel *panel)
{
    static struct frame frame;
    struct screen screen;

    screen_lamps(&screen, panel);
    frame.length = 0;
    for (int i = 0; i < screen.rows; i++) {
        add_line(&frame, screen.line[i], SCREEN_MOST_COLUMNS);
        add(&frame, "\n");
    }
    return fwrite(frame.text, 1, frame.length, stdout) == frame.length && fflush(stdout) == 0;
}
