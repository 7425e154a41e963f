/* Prints the ratios and writes them to FOLDER: bench FOLDER. Nothing here judges a time. */
#include "bench.h"

#include <stdlib.h>
#include <string.h>

enum { ROWS = 16 };

static FILE *open_in(const char *folder, const char *name)
{
    char path[1024];
    snprintf(path, sizeof path, "%s/%s", folder, name);
    FILE *file = fopen(path, "w");
    if (file == NULL) {
        perror(path);
        exit(2);
    }
    return file;
}

static void close_written(FILE *file)
{
    if (fclose(file) != 0) {
        perror("bench");
        exit(2);
    }
}

static void say_ratios(const char *folder, const struct timed *rows, int n)
{
    FILE *csv = open_in(folder, "ratios.csv");
    fprintf(csv, "load,unit,ours_a_second,plain_a_second,ratio,low_quartile,high_quartile\n");
    printf("%-22s %22s %22s %7s  %s\n", "load", "ours, million/s", "plain C, million/s", "ratio", "quartiles");
    for (int i = 0; i < n; i++) {
        const struct timed *t = &rows[i];
        printf("%-22s %12.1f %-9s %12.1f %-9s %7.2f  %.2f to %.2f\n", t->name, t->ours / 1e6, t->unit,
               t->plain / 1e6, t->unit, t->ratio, t->low, t->high);
        fprintf(csv, "%s,%s,%.0f,%.0f,%.4f,%.4f,%.4f\n", t->name, t->unit, t->ours, t->plain, t->ratio,
                t->low, t->high);
    }
    close_written(csv);
}

static void say_flat(const char *folder, const struct flat *rows, int n)
{
    FILE *csv = open_in(folder, "flat.csv");
    fprintf(csv, "words,ours_ns_a_syllable,plain_ns_a_syllable,ours_us_a_call,plain_us_a_call\n");
    printf("\n%-22s %22s %22s %s\n", "core, words", "ours, ns a syllable", "plain C, ns a syllable",
           "  a call of no syllable, us: ours, plain C");
    for (int i = 0; i < n; i++) {
        printf("%-22zu %22.2f %22.2f   %.0f, %.0f\n", rows[i].words, rows[i].ours, rows[i].plain,
               rows[i].ours_call, rows[i].plain_call);
        fprintf(csv, "%zu,%.3f,%.3f,%.1f,%.1f\n", rows[i].words, rows[i].ours, rows[i].plain,
                rows[i].ours_call, rows[i].plain_call);
    }
    close_written(csv);
}

int main(int count, char **words)
{
    static struct timed rows[ROWS];
    struct flat sizes[SIZES];
    int (*const parts[])(struct timed *) = {time_loads, time_inspections, time_files};
    int n = 0;
    if (count != 2) {
        fprintf(stderr, "usage: bench FOLDER\n");
        return 2;
    }
    for (size_t i = 0; i < sizeof parts / sizeof *parts; i++) {
        int filled = parts[i](rows + n);
        if (filled < 0)
            return 1;
        n += filled;
    }
    time_flat(sizes);
    say_ratios(words[1], rows, n);
    say_flat(words[1], sizes, SIZES);
    FILE *svg = open_in(words[1], "speed.svg");
    plot(svg, rows, n, sizes);
    close_written(svg);
    return 0;
}
