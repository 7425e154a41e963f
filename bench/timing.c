/* Interleaved repetitions: ours, plain, ours, plain ...; a ratio for each pair. */
#include "bench.h"

#include <stdlib.h>
#include <time.h>

enum { PAIRS = 41 };

/* Processor time, so that other work on the same computer counts little. */
double seconds(void)
{
    return (double)clock() / CLOCKS_PER_SEC;
}

static int rising(const void *x, const void *y)
{
    double a = *(const double *)x, b = *(const double *)y;
    return (a > b) - (a < b);
}

void compare_speed(struct timed *t, double (*ours)(void), double (*plain)(void))
{
    double o[PAIRS], p[PAIRS], r[PAIRS];
    for (int i = 0; i < PAIRS; i++) {
        o[i] = ours();
        p[i] = plain();
        r[i] = p[i] / o[i];
    }
    qsort(o, PAIRS, sizeof *o, rising);
    qsort(p, PAIRS, sizeof *p, rising);
    qsort(r, PAIRS, sizeof *r, rising);
    t->ours = t->units / o[PAIRS / 2];
    t->plain = t->units / p[PAIRS / 2];
    t->ratio = r[PAIRS / 2];
    t->low = r[PAIRS / 4];
    t->high = r[PAIRS - 1 - PAIRS / 4];
}
