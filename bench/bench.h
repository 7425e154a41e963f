/* What the parts of the bench share: our machine (../include/fifty_five.h) beside the plain C one (../second). */
#ifndef BENCH_H
#define BENCH_H

#include <stddef.h>
#include <stdint.h>
#include <stdio.h>

#include "../second/compare/machine/crossing.h"

/* ---- both.c: one state, held in both machines' forms */

struct pair {
    size_t length;
    uint8_t bytes[WORD * MOST], row[ROW];
    uint64_t words[MOST];
    struct second_registers g;
};

/* Fills the bytes and the row from the words and the registers. */
void pair_level(struct pair *p);
/* NULL, or what differs between the two forms. */
const char *pair_difference(const struct pair *p);

/* ---- loads.c: the programs */

enum { LOADS = 4, SMALLEST = 512 };
struct load {
    const char *name;
    void (*lay)(struct pair *p);
};
extern const struct load loads[LOADS];
/* The load's first state in a core of `length` words, at least SMALLEST. */
void load_lay(const struct load *load, size_t length, struct pair *p);

/* ---- timing.c: interleaved repetitions */

/* Each job does its work once and answers the seconds of processor time that it took. */
struct timed {
    const char *name, *unit;
    double units;             /* units of work in a job */
    double ours, plain;       /* units a second, medians */
    double ratio, low, high;  /* ours / plain, a pair at a time: median and quartiles */
};
double seconds(void);
void compare_speed(struct timed *t, double (*ours)(void), double (*plain)(void));

/* ---- the measurements */

/* Each answers how many rows it filled, or -1 after saying what differs. */
int time_loads(struct timed *rows);
int time_inspections(struct timed *rows);
int time_files(struct timed *rows);

enum { SIZES = 3 };
struct flat {
    size_t words;
    double ours, plain;           /* nanoseconds a syllable, without the call's own cost */
    double ours_call, plain_call; /* microseconds of a call that runs no syllable */
};
int time_flat(struct flat rows[SIZES]);

/* ---- plot.c */

void plot(FILE *out, const struct timed *rows, int n, const struct flat *sizes);

#endif
