#define _DEFAULT_SOURCE
#include "terminal.h"

#include <errno.h>
#include <fcntl.h>
#include <poll.h>
#include <signal.h>
#include <stdlib.h>
#include <string.h>
#include <sys/ioctl.h>
#include <termios.h>
#include <unistd.h>

/* The bytes of a key that sends several come at once; a lone Esc waits this long, in ms. */
enum { ESCAPE_WAIT = 50 };

/* The other screen and no cursor; at the end the cursor and the screen of before. */
static const char take[] = "\033[?1049h\033[2J\033[?25l";
static const char give[] = "\033[?25h\033[?1049l";

static struct termios before;
static volatile sig_atomic_t taken;      /* the modes are ours */
static volatile sig_atomic_t quit;       /* a signal to quit, or 0 */
static volatile sig_atomic_t suspended;  /* Ctrl-Z */
static volatile sig_atomic_t continued;  /* after a stop: a shell may have changed the modes */
static volatile sig_atomic_t redraw;     /* another size */
static int ended;                        /* no more input will come */
static int woken[2];                     /* a pipe: a signal ends the wait for a key */

static void put(const char *text, size_t length)
{
    while (length > 0) {
        ssize_t done = write(STDOUT_FILENO, text, length);
        if (done < 0 && errno == EINTR)
            continue;
        if (done <= 0) {
            ended = 1;
            return;
        }
        text += done;
        length -= (size_t)done;
    }
}

/* A signal may break off the wait for the output before the modes are set. */
static void set_modes(const struct termios *modes)
{
    while (tcsetattr(STDIN_FILENO, TCSADRAIN, modes) < 0 && errno == EINTR)
        continue;
}

static void take_over(void)
{
    struct termios raw = before;

    raw.c_lflag &= ~(tcflag_t)(ICANON | ECHO | IEXTEN);
    raw.c_iflag &= ~(tcflag_t)(IXON | ISTRIP);
    raw.c_cc[VMIN] = 1;
    raw.c_cc[VTIME] = 0;
    taken = 1;
    set_modes(&raw);
    put(take, sizeof take - 1);
}

void terminal_close(void)
{
    if (!taken)
        return;
    put(give, sizeof give - 1);
    set_modes(&before);
    taken = 0;
}

/* ---- signals */

static void wake(void)
{
    int kept = errno;

    if (write(woken[1], "", 1) < 0) {
        /* The pipe is full: the wait ends anyway. */
    }
    errno = kept;
}

static void on_quit(int signal_number)
{
    quit = signal_number;
    wake();
}

static void on_suspend(int signal_number)
{
    (void)signal_number;
    suspended = 1;
    wake();
}

static void on_continue(int signal_number)
{
    (void)signal_number;
    continued = 1;
    wake();
}

static void on_redraw(int signal_number)
{
    (void)signal_number;
    redraw = 1;
    wake();
}

/*
 * A fault: gives the terminal back, then lets the fault end the program. An emulator may enter a
 * handler with the stack 8 bytes out of line, which libc does not bear.
 */
__attribute__((force_align_arg_pointer)) static void on_fault(int signal_number)
{
    signal(signal_number, SIG_DFL);
    terminal_close();
    raise(signal_number);
}

static void handle(int signal_number, void (*handler)(int), int flags)
{
    struct sigaction action;

    memset(&action, 0, sizeof action);
    action.sa_handler = handler;
    action.sa_flags = flags;
    sigemptyset(&action.sa_mask);
    sigaction(signal_number, &action, NULL);
}

static void handle_all(void)
{
    const int quits[] = {SIGHUP, SIGINT, SIGQUIT, SIGTERM};
    const int faults[] = {SIGABRT, SIGBUS, SIGFPE, SIGILL, SIGSEGV};

    /* A signal to quit also ends a read of a file that hangs. */
    for (size_t i = 0; i < sizeof quits / sizeof quits[0]; i++)
        handle(quits[i], on_quit, 0);
    for (size_t i = 0; i < sizeof faults / sizeof faults[0]; i++)
        handle(faults[i], on_fault, 0);
    handle(SIGXFSZ, SIG_IGN, 0); /* a file that gets too large is an error of the write */
    handle(SIGTSTP, on_suspend, SA_RESTART);
    handle(SIGCONT, on_continue, SA_RESTART);
    handle(SIGWINCH, on_redraw, SA_RESTART);
}

/* Stops as Ctrl-Z is meant to, with the terminal given back meanwhile. */
static void suspend(void)
{
    suspended = 0;
    terminal_close();
    handle(SIGTSTP, SIG_DFL, 0);
    raise(SIGTSTP);
    handle(SIGTSTP, on_suspend, SA_RESTART);
    continued = 1;
}

void terminal_die_of_signal(void)
{
    if (!quit)
        return;
    signal(quit, SIG_DFL);
    raise(quit);
}

/* ---- keys */

int terminal_open(void)
{
    if (!isatty(STDOUT_FILENO) || tcgetattr(STDIN_FILENO, &before) || pipe(woken))
        return -1;
    for (int i = 0; i < 2; i++)
        fcntl(woken[i], F_SETFL, O_NONBLOCK);
    handle_all();
    atexit(terminal_close);
    take_over();
    return 0;
}

/* Waits for a byte or a signal; answers whether a byte (or the end) is there. */
static int wait_byte(int limit)
{
    struct pollfd ready[2] = {{STDIN_FILENO, POLLIN, 0}, {woken[0], POLLIN, 0}};
    char spare[64];

    if (poll(ready, 2, limit) < 0)
        return 0;
    while (read(woken[0], spare, sizeof spare) > 0)
        continue;
    return ready[0].revents != 0;
}

static int read_byte(void)
{
    unsigned char byte;
    ssize_t got = read(STDIN_FILENO, &byte, 1);

    if (got == 1)
        return byte;
    if (got == 0 || (errno != EINTR && errno != EAGAIN))
        ended = 1;
    return ended ? KEY_END : KEY_OTHER;
}

/* After Esc: nothing more is the Esc key; else the rest of a key is passed over. */
static int read_escape(void)
{
    int byte;

    if (!wait_byte(ESCAPE_WAIT))
        return KEY_ESCAPE;
    byte = read_byte();
    if (byte != '[' && byte != 'O')
        return byte == KEY_END ? KEY_END : KEY_OTHER;
    while (wait_byte(ESCAPE_WAIT)) {
        byte = read_byte();
        if (byte >= '@')
            break;
    }
    return byte == KEY_END ? KEY_END : KEY_OTHER;
}

int terminal_key(void)
{
    for (;;) {
        int byte;

        if (ended || quit)
            return KEY_END;
        if (suspended)
            suspend();
        if (continued)
            take_over();
        if (continued || redraw) {
            continued = redraw = 0;
            return KEY_REDRAW;
        }
        if (!wait_byte(-1))
            continue;
        byte = read_byte();
        return byte == KEY_ESCAPE ? read_escape() : byte;
    }
}

void terminal_size(int *rows, int *columns)
{
    struct winsize size;

    *rows = 24;
    *columns = 80;
    if (ioctl(STDOUT_FILENO, TIOCGWINSZ, &size) == 0 && size.ws_row > 0 && size.ws_col > 0) {
        *rows = size.ws_row;
        *columns = size.ws_col;
    }
}

void terminal_write(const char *text, size_t length)
{
    if (!ended)
        put(text, length);
}
