/*
 * Runs a program in a terminal of its own and compares what it shows: pty [--make] SESSION PROGRAM...
 * A session is a file of lines. '#' starts a comment.
 *   window ROWS COLUMNS   the window's size, from now on (24 80 at first)
 *   set NAME=VALUE        the program's environment
 *   loose                 the terminal does not control the program: its end sends no signal
 *   start ARGUMENTS       starts PROGRAM... with these, divided at spaces
 *   type TEXT             keys; \n, \e, \xHH as in C
 *   screen NAME           the screen is that of NAME.screen beside the session (--make: writes it)
 *   chance SEED COUNT     keys and windows by chance, then Ctrl-D till it ends; if it ends before, it is started again
 *   signal NAME           FPE, HUP, INT, QUIT or TERM
 *   hangup                the terminal goes away
 *   ends STATUS           the program ends so, by itself
 *   dies NAME             the program ends by this signal
 * At a screen the program must have taken the terminal over, at an end it must have given it back.
 * A wait ends when what is waited for is there. The last line is 'N passed, M failed'.
 */
#define _XOPEN_SOURCE 700
#define _DEFAULT_SOURCE
#include <signal.h>
#include <stdarg.h>
#include <stdio.h>
#include <stdlib.h>
#include <string.h>
#include <sys/wait.h>

#include "child.h"

enum {
    QUIET = 40,      /* ms with no output: a screen that is right stays so */
    MAKE_QUIET = 700 /* ms with no output: a screen is stored */
};

static struct child child = {.master = -1, .slave = -1};
static int passed, failed, making;
static const char *session;
static int line_number;
static char arguments[512];

static void result(int good, const char *format, ...) __attribute__((format(printf, 2, 3)));
static void result(int good, const char *format, ...)
{
    va_list rest;

    passed += good != 0;
    failed += good == 0;
    if (good)
        return;
    printf("pty: FAILED: %s:%d: ", session, line_number);
    va_start(rest, format);
    vprintf(format, rest);
    va_end(rest);
    putchar('\n');
}

/* The session can't go on. */
static void give_up(const char *why)
{
    if (child.pid > 0)
        kill(child.pid, SIGKILL);
    result(0, "%s", why);
    printf("%d passed, %d failed\n", passed, failed);
    exit(2);
}

static void start(void)
{
    if (!child_start(&child, arguments))
        give_up("no terminal to be had");
}

/* ---- screens */

static const char *stored_path(const char *name)
{
    static char path[1024];
    const char *slash = strrchr(session, '/');

    snprintf(path, sizeof path, "%.*s%s.screen", slash ? (int)(slash - session) + 1 : 0, session, name);
    return path;
}

static const char *stored_screen(const char *name)
{
    static char text[MOST_ROWS * (4 * MOST_COLUMNS + 1) + 1];
    FILE *file = fopen(stored_path(name), "r");

    if (!file)
        return NULL;
    text[fread(text, 1, sizeof text - 1, file)] = 0;
    fclose(file);
    return text;
}

static void make_screen(const char *name)
{
    FILE *file;

    child_settle(&child, MAKE_QUIET);
    file = fopen(stored_path(name), "w");
    if (!file || fputs(screen_text(&child.screen), file) < 0 || fclose(file))
        give_up("the screen can't be stored");
}

static int shows(const char *stored)
{
    return strcmp(screen_text(&child.screen), stored) == 0;
}

static void check_screen(const char *name)
{
    const char *stored = stored_screen(name);
    long long limit = clock_now() + LIMIT;

    if (!stored) {
        result(0, "no file %s", stored_path(name));
        return;
    }
    while (!shows(stored) && !child_has_ended(&child) && clock_now() < limit)
        child_pump(&child, QUIET);
    child_settle(&child, QUIET);
    if (!child_is_raw(&child))
        result(0, "%s: the terminal is not taken over", name);
    else if (child.screen.wrong)
        result(0, "%s: %s", name, child.screen.wrong);
    else
        result(shows(stored), "%s: the screen differs", name);
    if (!shows(stored))
        printf("---- expected\n%s---- shown\n%s----\n", stored, screen_text(&child.screen));
}

/* ---- ends */

static int signal_of(const char *name)
{
    const struct {
        const char *name;
        int number;
    } signals[] = {{"FPE", SIGFPE}, {"HUP", SIGHUP}, {"INT", SIGINT}, {"QUIT", SIGQUIT}, {"TERM", SIGTERM}};

    for (size_t i = 0; i < sizeof signals / sizeof signals[0]; i++)
        if (strcmp(signals[i].name, name) == 0)
            return signals[i].number;
    give_up("no such signal");
    return 0;
}

static void check_restored(void)
{
    if (child.master < 0)
        return;
    child_settle(&child, QUIET);
    result(child_is_restored(&child), "the terminal is not given back as it was");
    child_hang_up(&child);
}

static void check_ends(int wanted)
{
    int status = child_wait(&child);

    result(status >= 0 && WIFEXITED(status) && WEXITSTATUS(status) == wanted, "ended with %#x, not with status %d",
           (unsigned)status, wanted);
    check_restored();
}

static void check_dies(int wanted)
{
    int status = child_wait(&child);

    result(status >= 0 && WIFSIGNALED(status) && WTERMSIG(status) == wanted, "ended with %#x, not by signal %d",
           (unsigned)status, wanted);
    check_restored();
}

/* ---- keys */

static size_t unescape(char *text)
{
    char *to = text;
    unsigned byte;

    for (char *from = text; *from; from++) {
        if (*from != '\\')
            *to++ = *from;
        else if (*++from == 'n')
            *to++ = '\n';
        else if (*from == 'e')
            *to++ = '\033';
        else if (*from == 'x' && sscanf(from + 1, "%2x", &byte) == 1) {
            *to++ = (char)byte;
            from += 2;
        } else
            give_up("no such escape");
    }
    return (size_t)(to - text);
}

static void type(const char *keys, size_t length)
{
    if (!child_type(&child, keys, length))
        give_up("the terminal takes no keys");
}

static unsigned long long seed;

static unsigned chance(unsigned below)
{
    seed = seed * 6364136223846793005ULL + 1442695040888963407ULL;
    return (unsigned)(seed >> 33) % below;
}

/* No '/' and no '.': what is written stays in the folder that the test runs in. */
static void chance_key(void)
{
    static const char *const keys[] = {
        "s", " ", "s", "r", "=", "l", "w", "?", "\n", "\n", "\n", "\033", "\033[A", "\177", "\025", "x", "\t",
        "0", "1", "2", "3", "7", "9", "77777", "1000000", "18446744073709551616", " empty", " full", " on",
        "A ", "B ", "S ", "F ", "C ", "R ", "L ", "SALF ", "MSFF ", "core", "yes", "\303\251", "\377", "q", "\004",
        "=A 7777777777777777\n", "=C 77777\n", "=C 0\n", "=L 3\n", "=S 77777\n", "=R 777\n", "=SALF 1\n",
        "=A empty\n", "r100\n", "wcore\nyes\n", "lcore\n", "l\n",
    };
    const char *key = keys[chance(sizeof keys / sizeof keys[0])];

    type(key, strlen(key));
    if (chance(20) == 0)
        child_window(&child, 1 + (int)chance(40), 1 + (int)chance(120));
}

/* A program that quits by a key must end well; it is then started again. */
static void check_chance(int count)
{
    long long limit;
    int rows = child.screen.rows, columns = child.screen.columns, status = 0, restored = 1;

    for (int i = 0; i < count && status == 0 && restored; i++) {
        chance_key();
        child_settle(&child, 1);
        if (!child_has_ended(&child))
            continue;
        status = child_wait(&child);
        child_settle(&child, QUIET);
        restored = child_is_restored(&child);
        child_hang_up(&child);
        start();
    }
    result(status == 0 && restored, "keys by chance: ended with %#x%s", (unsigned)status,
           restored ? "" : ", the terminal not given back as it was");
    child_window(&child, rows, columns);
    limit = clock_now() + LIMIT;
    while (!child_has_ended(&child) && clock_now() < limit) {
        type("\004", 1);
        child_settle(&child, QUIET);
    }
}

/* ---- lines */

static int needs_program(const char *word)
{
    const char *const others[] = {"window", "set", "loose", "start"};

    for (size_t i = 0; i < sizeof others / sizeof others[0]; i++)
        if (strcmp(others[i], word) == 0)
            return 0;
    return 1;
}

static void do_line(char *line)
{
    char *rest = line + strcspn(line, " ");
    int rows, columns;

    if (*rest)
        *rest++ = 0;
    if (child.pid <= 0 && needs_program(line))
        give_up("no program runs");
    if (strcmp(line, "window") == 0 && sscanf(rest, "%d %d", &rows, &columns) == 2 && rows <= MOST_ROWS &&
        columns < MOST_COLUMNS)
        child_window(&child, rows, columns);
    else if (strcmp(line, "set") == 0)
        putenv(strdup(rest));
    else if (strcmp(line, "loose") == 0)
        child.loose = 1;
    else if (strcmp(line, "start") == 0) {
        snprintf(arguments, sizeof arguments, "%s", rest);
        start();
    } else if (strcmp(line, "type") == 0)
        type(rest, unescape(rest));
    else if (strcmp(line, "screen") == 0 && making)
        make_screen(rest);
    else if (strcmp(line, "screen") == 0)
        check_screen(rest);
    else if (strcmp(line, "chance") == 0 && sscanf(rest, "%llu %d", &seed, &rows) == 2)
        check_chance(rows);
    else if (strcmp(line, "signal") == 0)
        kill(child.pid, signal_of(rest));
    else if (strcmp(line, "hangup") == 0)
        child_hang_up(&child);
    else if (strcmp(line, "ends") == 0)
        check_ends(atoi(rest));
    else if (strcmp(line, "dies") == 0)
        check_dies(signal_of(rest));
    else
        give_up("no such line");
}

int main(int count, char **words)
{
    char line[512];
    FILE *file;

    making = count > 1 && strcmp(words[1], "--make") == 0;
    if (count < 3 + making) {
        fputs("pty [--make] SESSION PROGRAM...\n", stderr);
        return 2;
    }
    session = words[1 + making];
    child.program = words + 2 + making;
    child_window(&child, 24, 80);
    file = fopen(session, "r");
    if (!file)
        give_up("no such session");
    signal(SIGPIPE, SIG_IGN);
    for (line_number = 1; fgets(line, sizeof line, file); line_number++) {
        line[strcspn(line, "\n")] = 0;
        if (line[0] && line[0] != '#')
            do_line(line);
    }
    if (child.pid > 0)
        give_up("the session leaves its program running");
    printf("%d passed, %d failed\n", passed, failed);
    return failed > 0;
}
