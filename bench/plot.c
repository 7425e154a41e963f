/* The ratios as bars and the cost of a syllable over core size as lines, in plain SVG. */
#include "bench.h"

enum { WIDTH = 920, LEFT = 200, BAR = 22, STEP = 34, TOP = 60, PLOT = 180 };

static const char *const ours_ink = "#1f6f5c", *const plain_ink = "#b5651d";

static void text(FILE *out, double x, double y, const char *anchor, const char *words)
{
    fprintf(out, "<text x=\"%.1f\" y=\"%.1f\" text-anchor=\"%s\">%s</text>\n", x, y, anchor, words);
}

static void line(FILE *out, double x1, double y1, double x2, double y2, const char *ink)
{
    fprintf(out, "<line x1=\"%.1f\" y1=\"%.1f\" x2=\"%.1f\" y2=\"%.1f\" stroke=\"%s\"/>\n", x1, y1, x2, y2, ink);
}

/* A ratio past twice is drawn as far as the plot goes, so that the others can be told apart. */
enum { MOST_RATIO = 2 };

static double drawn(double ratio)
{
    return ratio < MOST_RATIO ? ratio : MOST_RATIO;
}

/* A bar for each ratio with its quartiles, and a line where the two are equally fast. */
static void bars(FILE *out, const struct timed *rows, int n)
{
    double scale = (WIDTH - LEFT - 140.0) / MOST_RATIO, even = LEFT + scale;
    char label[64];
    text(out, 20, 30, "start", "Speed of ours divided by the speed of plain C (median, quartiles)");
    for (int i = 0; i < n; i++) {
        double y = TOP + STEP * i, middle = y + BAR / 2.0;
        text(out, LEFT - 10, middle + 5, "end", rows[i].name);
        fprintf(out, "<rect x=\"%d\" y=\"%.1f\" width=\"%.1f\" height=\"%d\" fill=\"%s\"/>\n", LEFT, y,
                drawn(rows[i].ratio) * scale, BAR, ours_ink);
        line(out, LEFT + drawn(rows[i].low) * scale, middle, LEFT + drawn(rows[i].high) * scale, middle, "black");
        snprintf(label, sizeof label, "%.2f%s", rows[i].ratio, rows[i].ratio > MOST_RATIO ? " (cut off)" : "");
        double end = LEFT + drawn(rows[i].high) * scale;
        text(out, (end < even && end > even - 45 ? even : end) + 8, middle + 5, "start", label);
    }
    line(out, even, TOP - 8, even, TOP + STEP * n, "black");
    text(out, even, TOP - 12, "middle", "1.0");
}

static void curve(FILE *out, double top, double scale, const double *values, const char *ink, const char *name)
{
    double step = (WIDTH - LEFT - 200) / (double)(SIZES - 1), base = top + PLOT;
    char label[64];
    fprintf(out, "<polyline fill=\"none\" stroke=\"%s\" stroke-width=\"2\" points=\"", ink);
    for (int i = 0; i < SIZES; i++)
        fprintf(out, "%.1f,%.1f ", LEFT + step * i, base - values[i] * scale);
    fprintf(out, "\"/>\n");
    snprintf(label, sizeof label, "%s, %.1f ns", name, values[SIZES - 1]);
    text(out, LEFT + step * (SIZES - 1) + 10, base - values[SIZES - 1] * scale + 5, "start", label);
}

static void flat_lines(FILE *out, double top, const struct flat *sizes)
{
    double ours[SIZES], plain[SIZES], most = 0, step = (WIDTH - LEFT - 200) / (double)(SIZES - 1);
    char label[64];
    for (int i = 0; i < SIZES; i++) {
        ours[i] = sizes[i].ours;
        plain[i] = sizes[i].plain;
        most = ours[i] > most ? ours[i] : most;
        most = plain[i] > most ? plain[i] : most;
    }
    double scale = PLOT / (most * 1.3);
    text(out, 20, top - 20, "start", "Nanoseconds a syllable of the arithmetic loop, by the words of the core");
    line(out, LEFT, top + PLOT, WIDTH - 200, top + PLOT, "black");
    line(out, LEFT, top, LEFT, top + PLOT, "black");
    text(out, LEFT - 10, top + PLOT + 5, "end", "0");
    for (int i = 0; i < SIZES; i++) {
        snprintf(label, sizeof label, "%zu", sizes[i].words);
        text(out, LEFT + step * i, top + PLOT + 20, "middle", label);
    }
    curve(out, top, scale, ours, ours_ink, "ours");
    curve(out, top, scale, plain, plain_ink, "plain C");
}

void plot(FILE *out, const struct timed *rows, int n, const struct flat *sizes)
{
    double flat_top = TOP + STEP * n + 70, height = flat_top + PLOT + 50;
    fprintf(out,
            "<svg xmlns=\"http://www.w3.org/2000/svg\" width=\"%d\" height=\"%.0f\" font-family=\"sans-serif\" "
            "font-size=\"14\">\n<rect width=\"100%%\" height=\"100%%\" fill=\"white\"/>\n",
            WIDTH, height);
    bars(out, rows, n);
    flat_lines(out, flat_top, sizes);
    fprintf(out, "</svg>\n");
}
