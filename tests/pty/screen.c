#include "screen.h"

#include <stddef.h>
#include <stdio.h>
#include <string.h>

static void wrong(struct screen *screen, const char *what)
{
    if (!screen->wrong)
        screen->wrong = what;
}

static void clear_row(struct screen *screen, int row, int column)
{
    for (; column < MOST_COLUMNS; column++)
        strcpy(screen->cell[row][column], " ");
}

static void clear_below(struct screen *screen, int row, int column)
{
    for (; row < MOST_ROWS; row++, column = 0)
        clear_row(screen, row, column);
}

void screen_clear(struct screen *screen)
{
    clear_below(screen, 0, 0);
    screen->row = screen->column = screen->coded = 0;
    screen->other = screen->hidden = 0;
    screen->wrong = NULL;
}

static void do_code(struct screen *screen, const char *code)
{
    int row, column;
    char end;

    if (strcmp(code, "[?1049h") == 0 || strcmp(code, "[?1049l") == 0) {
        screen->other = code[6] == 'h';
        clear_below(screen, 0, 0);
    } else if (strcmp(code, "[?25h") == 0 || strcmp(code, "[?25l") == 0)
        screen->hidden = code[4] == 'l';
    else if (strcmp(code, "[2J") == 0)
        clear_below(screen, 0, 0);
    else if (strcmp(code, "[J") == 0)
        clear_below(screen, screen->row, screen->column);
    else if (strcmp(code, "[K") == 0)
        clear_row(screen, screen->row, screen->column);
    else if (sscanf(code, "[%d;%d%c", &row, &column, &end) == 3 && end == 'H' && row > 0 &&
             row <= screen->rows && column > 0 && column <= screen->columns) {
        screen->row = row - 1;
        screen->column = column - 1;
    } else
        wrong(screen, "a code that is not known, or a place outside the window");
}

static void put_char(struct screen *screen, unsigned char byte)
{
    char *cell = screen->cell[screen->row][screen->column];
    size_t length;

    if (byte >= 0x80 && byte < 0xc0) {
        if (screen->column == 0)
            return;
        cell = screen->cell[screen->row][screen->column - 1];
        length = strlen(cell);
        if (length < 4) {
            cell[length] = (char)byte;
            cell[length + 1] = 0;
        }
        return;
    }
    if (screen->column >= screen->columns || screen->column >= MOST_COLUMNS - 1) {
        wrong(screen, "a char past the last column");
        return;
    }
    cell[0] = (char)byte;
    cell[1] = 0;
    screen->column++;
}

void screen_take(struct screen *screen, unsigned char byte)
{
    if (screen->coded > 0) {
        if (screen->coded + 1 < (int)sizeof screen->code)
            screen->code[screen->coded++] = (char)byte;
        if (screen->coded > 2 && byte >= '@') {
            screen->code[screen->coded] = 0;
            screen->coded = 0;
            do_code(screen, screen->code + 1);
        }
    } else if (byte == 27)
        screen->code[screen->coded++] = 27;
    else if (byte < ' ')
        wrong(screen, "a control char");
    else
        put_char(screen, byte);
}

const char *screen_text(const struct screen *screen)
{
    static char text[MOST_ROWS * (4 * MOST_COLUMNS + 1) + 1];
    char *at = text;

    for (int row = 0; row < screen->rows; row++) {
        char *end = at;
        for (int column = 0; column < screen->columns; column++) {
            const char *cell = screen->cell[row][column];
            at += sprintf(at, "%s", cell);
            if (strcmp(cell, " ") != 0)
                end = at;
        }
        at = end;
        *at++ = '\n';
    }
    *at = 0;
    return text;
}
