/* The cabinet's panel in a terminal: lamps and keys over the C boundary, include/fifty_five.h. */
#define _DEFAULT_SOURCE
#include <stdio.h>
#include <stdlib.h>
#include <string.h>
#include <strings.h>
#include <unistd.h>

#include "files.h"
#include "paint.h"
#include "panel.h"
#include "terminal.h"
#include "words.h"

static const char usage[] =
    "lamps [OPTIONS] CORE-FILE: the panel of a word-mode B 5500, in a terminal; ? lists its keys\n"
    "  --at C --r R --s S   start there, in octal (else C 0, R 1, S 37); the rest is 0, empty or off\n"
    "  --exact              the core is the file's words alone (else filled up with 0 to 4096 words)\n"
    "  --run N              run N syllables first, in decimal\n"
    "  --once               print one screen and end; needs no terminal\n"
    "  --ascii              lamps are * and . (else circles where the locale says UTF-8)\n";

/* ---- questions */

/* Reads a line at the bottom row; answers 0 if it was left or the input ended. */
static int ask(const struct panel *panel, const char *question, char *line, size_t room)
{
    size_t length = 0;

    for (;;) {
        int key;

        line[length] = 0;
        paint_question(panel, question, line);
        key = terminal_key();
        if (key == '\n' || key == '\r')
            return 1;
        if (key == KEY_ESCAPE || key == KEY_END || key == KEY_CTRL_D)
            return 0;
        if ((key == KEY_DELETE || key == KEY_BACKSPACE) && length > 0)
            length--;
        else if (key == KEY_CTRL_U)
            length = 0;
        else if (key >= ' ' && key < KEY_END && key != KEY_DELETE && length + 1 < room)
            line[length++] = (char)key;
    }
}

/* Does what the line says, or says that it was left. */
static void ask_then(struct panel *panel, const char *question, void (*then)(struct panel *, const char *), const char *left)
{
    char line[PANEL_NAME_ROOM];

    if (ask(panel, question, line, sizeof line))
        then(panel, line);
    else
        panel_say(panel, left);
}

static void ask_load(struct panel *panel)
{
    char line[PANEL_NAME_ROOM];

    if (!ask(panel, " load file (Enter: again)? ", line, sizeof line))
        panel_say(panel, "nothing loaded");
    else {
        if (!line[0])
            memcpy(line, panel->file, sizeof line);
        panel_load(panel, line);
    }
}

static void ask_write(struct panel *panel)
{
    char line[PANEL_NAME_ROOM], yes[8];

    if (!ask(panel, " write to file? ", line, sizeof line) || !line[0] ||
        (file_is_there(line) && (!ask(panel, " it is there; replace (yes)? ", yes, sizeof yes) ||
                                 strcasecmp(yes, "yes") != 0)))
        panel_say(panel, "nothing written");
    else
        panel_write(panel, line);
}

/* ---- keys */

/* Does a key; answers 0 at the end. */
static int do_key(struct panel *panel, int key)
{
    switch (key) {
    case 's':
    case ' ': panel_step(panel); return 1;
    case 'r': ask_then(panel, " run how many (decimal)? ", panel_run, "no run"); return 1;
    case '=': ask_then(panel, " set NAME OCTAL? ", panel_set, "nothing set"); return 1;
    case 'l': ask_load(panel); return 1;
    case 'w': ask_write(panel); return 1;
    case '?': paint_help(); return 1;
    case 'q':
    case KEY_CTRL_D:
    case KEY_END: return 0;
    case KEY_REDRAW: return 1;
    default: panel_say(panel, "that is no key of the panel: ? lists them"); return 1;
    }
}

static void keys(struct panel *panel)
{
    do
        paint_panel(panel);
    while (do_key(panel, terminal_key()));
}

/* ---- options */

struct options {
    const char *file;
    const char *run;
    int once;
};

static int fail(int status, const char *what, const char *which)
{
    fprintf(stderr, "lamps: %s%s\n", what, which);
    return status;
}

/* An option with a register's value; answers 0 if it is no such option. */
static int register_option(const char *name, enum fifty_five_register *which)
{
    if (strcmp(name, "--at") == 0)
        *which = FIFTY_FIVE_C;
    else if (strcmp(name, "--r") == 0)
        *which = FIFTY_FIVE_R;
    else if (strcmp(name, "--s") == 0)
        *which = FIFTY_FIVE_S;
    else
        return 0;
    return 1;
}

/* An option at argument *at; answers 0, or the status to end with. */
static int read_option(struct panel *panel, struct options *options, char **arguments, int *at)
{
    const char *name = arguments[*at], *value = arguments[*at + 1];
    enum fifty_five_register which;
    uint64_t number;

    if (strcmp(name, "--once") == 0)
        options->once = 1;
    else if (strcmp(name, "--exact") == 0)
        panel->exact = 1;
    else if (strcmp(name, "--ascii") == 0)
        paint_ascii();
    else if (strcmp(name, "--run") == 0) {
        if (!value || !read_decimal(value, &number))
            return fail(2, "--run needs a decimal count", "");
        options->run = value;
        ++*at;
    } else if (register_option(name, &which)) {
        if (!value || !read_octal(value, &number))
            return fail(2, name, " needs an octal number");
        put_word(panel->start, which, number);
        ++*at;
    } else
        return fail(2, "no such option: ", name);
    return 0;
}

static int read_options(struct panel *panel, struct options *options, int count, char **arguments)
{
    int status;

    for (int i = 1; i < count; i++) {
        if (strcmp(arguments[i], "--") == 0 && i + 2 == count && !options->file) {
            options->file = arguments[i + 1];
            break;
        }
        if (arguments[i][0] == '-') {
            status = read_option(panel, options, arguments, &i);
            if (status)
                return status;
        } else if (options->file)
            return fail(2, "one core file only, not also ", arguments[i]);
        else
            options->file = arguments[i];
    }
    return options->file ? 0 : fail(2, "no core file; lamps --help says more", "");
}

int main(int count, char **arguments)
{
    static struct panel panel;
    struct options options = {NULL, NULL, 0};
    int status;

    if (count == 2 && strcmp(arguments[1], "--help") == 0)
        return fputs(usage, stdout) < 0;
    panel_start(&panel);
    status = read_options(&panel, &options, count, arguments);
    if (status)
        return status;
    if (!options.once && !(isatty(STDIN_FILENO) && isatty(STDOUT_FILENO)))
        return fail(2, "standard input and output are no terminal (--once prints one screen)", "");
    if (!panel_load(&panel, options.file) || !panel_check_start(&panel))
        return fail(1, panel.said, "");
    if (options.run)
        panel_run(&panel, options.run);
    if (options.once)
        return paint_once(&panel) ? 0 : fail(1, "could not write the screen", "");
    if (terminal_open())
        return fail(2, "the terminal can't be used", "");
    keys(&panel);
    terminal_close();
    terminal_die_of_signal();
    return 0;
}
