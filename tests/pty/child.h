/* A program in a terminal of its own. */
#ifndef CHILD_H
#define CHILD_H

#include <stddef.h>
#include <sys/types.h>

#include "screen.h"

struct child {
    char **program; /* and its first arguments, ended by NULL */
    int loose;      /* the terminal does not control it */
    pid_t pid;      /* 0: none runs */
    int master, slave;
    struct screen screen;
};

/* Starts the program with more arguments, divided at spaces; answers 0 if there is no terminal. */
int child_start(struct child *child, const char *arguments);

/* Sets the window's size, also of a terminal yet to come. */
void child_window(struct child *child, int rows, int columns);

/* Takes output, waiting up to `wait` ms for some; answers whether there was any. */
int child_pump(struct child *child, int wait);

/* Takes output till none comes for so many ms. */
void child_settle(struct child *child, int quiet);

/* Types keys, taking output meanwhile; answers whether the terminal took them. */
int child_type(struct child *child, const char *keys, size_t length);

/* Whether it has ended; its status is still to be asked. */
int child_has_ended(const struct child *child);

/* Waits for its end; answers its status, or -1 past the limit, and it is then ended by force. */
int child_wait(struct child *child);

/* Whether the program has taken the terminal over; whether it is as it was before the start. */
int child_is_raw(const struct child *child);
int child_is_restored(const struct child *child);

/* The terminal goes away. */
void child_hang_up(struct child *child);

/* Only a failure waits so long, in ms. */
enum { LIMIT = 30000 };

/* A clock, in ms. */
long long clock_now(void);

#endif
