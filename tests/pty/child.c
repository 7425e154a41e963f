#define _XOPEN_SOURCE 700
#define _DEFAULT_SOURCE
#include "child.h"

#include <errno.h>
#include <fcntl.h>
#include <poll.h>
#include <signal.h>
#include <stdio.h>
#include <stdlib.h>
#include <string.h>
#include <sys/ioctl.h>
#include <sys/wait.h>
#include <termios.h>
#include <time.h>
#include <unistd.h>

enum { MOST_ARGUMENTS = 32 };

static struct termios before; /* the terminal's modes at the start */

long long clock_now(void)
{
    struct timespec at;

    clock_gettime(CLOCK_MONOTONIC, &at);
    return at.tv_sec * 1000LL + at.tv_nsec / 1000000;
}

void child_window(struct child *child, int rows, int columns)
{
    struct winsize size = {(unsigned short)rows, (unsigned short)columns, 0, 0};

    child->screen.rows = rows;
    child->screen.columns = columns;
    if (child->master >= 0)
        ioctl(child->master, TIOCSWINSZ, &size);
}

static void become_program(const struct child *child, const char *arguments)
{
    char *words = strdup(arguments), *all[MOST_ARGUMENTS];
    int count = 0;

    for (; child->program[count] && count < MOST_ARGUMENTS - 1; count++)
        all[count] = child->program[count];
    for (char *word = strtok(words, " "); word && count < MOST_ARGUMENTS - 1; word = strtok(NULL, " "))
        all[count++] = word;
    all[count] = NULL;
    setsid();
    if (!child->loose)
        ioctl(child->slave, TIOCSCTTY, 0);
    for (int i = 0; i < 3; i++)
        dup2(child->slave, i);
    close(child->master);
    if (child->slave > 2)
        close(child->slave);
    execvp(all[0], all);
    _exit(127);
}

int child_start(struct child *child, const char *arguments)
{
    child->master = posix_openpt(O_RDWR | O_NOCTTY);
    if (child->master < 0 || grantpt(child->master) || unlockpt(child->master))
        return 0;
    child->slave = open(ptsname(child->master), O_RDWR | O_NOCTTY);
    if (child->slave < 0 || tcgetattr(child->slave, &before))
        return 0;
    fcntl(child->master, F_SETFL, O_NONBLOCK);
    child_window(child, child->screen.rows, child->screen.columns);
    screen_clear(&child->screen);
    fflush(stdout);
    child->pid = fork();
    if (child->pid == 0)
        become_program(child, arguments);
    return child->pid > 0;
}

int child_pump(struct child *child, int wait)
{
    struct pollfd ready = {child->master, POLLIN, 0};
    unsigned char bytes[4096];
    ssize_t got;

    if (poll(&ready, 1, wait) <= 0 || !(ready.revents & POLLIN))
        return 0;
    got = read(child->master, bytes, sizeof bytes);
    for (ssize_t i = 0; i < got; i++)
        screen_take(&child->screen, bytes[i]);
    return got > 0;
}

void child_settle(struct child *child, int quiet)
{
    long long limit = clock_now() + LIMIT;

    while (clock_now() < limit && child_pump(child, quiet))
        continue;
}

int child_type(struct child *child, const char *keys, size_t length)
{
    long long limit = clock_now() + LIMIT;

    while (length > 0 && clock_now() < limit) {
        ssize_t taken = write(child->master, keys, length);
        if (taken < 0 && errno != EAGAIN)
            return 0;
        if (taken <= 0) {
            child_pump(child, 5);
            continue;
        }
        keys += taken;
        length -= (size_t)taken;
    }
    return length == 0;
}

int child_has_ended(const struct child *child)
{
    siginfo_t info = {0};

    return waitid(P_PID, (id_t)child->pid, &info, WEXITED | WNOHANG | WNOWAIT) < 0 || info.si_pid != 0;
}

int child_wait(struct child *child)
{
    long long limit = clock_now() + LIMIT;
    int status, late;

    while (!child_has_ended(child) && clock_now() < limit)
        child_pump(child, 5);
    late = !child_has_ended(child);
    if (late)
        kill(child->pid, SIGKILL);
    waitpid(child->pid, &status, 0);
    child->pid = 0;
    return late ? -1 : status;
}

int child_is_raw(const struct child *child)
{
    struct termios at;

    return tcgetattr(child->slave, &at) == 0 && !(at.c_lflag & (ICANON | ECHO)) && child->screen.other;
}

int child_is_restored(const struct child *child)
{
    struct termios at;

    return tcgetattr(child->slave, &at) == 0 && at.c_iflag == before.c_iflag && at.c_oflag == before.c_oflag &&
           at.c_cflag == before.c_cflag && at.c_lflag == before.c_lflag &&
           memcmp(at.c_cc, before.c_cc, sizeof at.c_cc) == 0 && !child->screen.other && !child->screen.hidden;
}

void child_hang_up(struct child *child)
{
    if (child->master >= 0) {
        close(child->master);
        close(child->slave);
    }
    child->master = child->slave = -1;
}
