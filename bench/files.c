/* Core files of 32,768 words, taken in, and taken in and given back. */
#include "bench.h"

#include <string.h>

enum { TIMES = 50 };

static uint8_t file[WORD * MOST], core[WORD * MOST], row[ROW], back[WORD * MOST];
static uint64_t words[MOST];

static void lay_file(void)
{
    uint64_t x = 1;
    for (size_t i = 0; i < MOST; i++) {
        x = x * UINT64_C(6364136223846793005) + UINT64_C(1442695040888963407);
        words[i] = x >> 16;
    }
    words_to_bytes(words, MOST, file);
}

/* Ours checks the file and copies its bytes: a core stays in the file's form. */
static double load_ours(void)
{
    double from = seconds();
    for (int i = 0; i < TIMES; i++)
        if (fifty_five_load(file, sizeof file, core, sizeof core) != FIFTY_FIVE_WENT_ON)
            return -1;
    return seconds() - from;
}

/* The plain one checks the file and makes words of it. */
static double load_plain(void)
{
    double from = seconds();
    for (int i = 0; i < TIMES; i++)
        if (second_read_core_file(file, sizeof file, words, MOST) != SECOND_WENT_ON)
            return -1;
    return seconds() - from;
}

/* A run of no syllable: bytes to words, the checks, and words to bytes again. */
static double through_ours(void)
{
    const struct second_registers g = {.S = 31, .R = 1};
    uint64_t completed;
    registers_to_row(&g, row);
    double from = seconds();
    for (int i = 0; i < TIMES; i++)
        if (fifty_five_run(core, sizeof core, row, ROW, 0, &completed) != FIFTY_FIVE_WENT_ON)
            return -1;
    return seconds() - from;
}

static double through_plain(void)
{
    struct second_registers g = {.S = 31, .R = 1};
    uint64_t completed;
    double from = seconds();
    for (int i = 0; i < TIMES; i++)
        if (second_read_core_file(file, sizeof file, words, MOST) != SECOND_WENT_ON ||
            second_run(words, MOST, &g, 0, &completed) != SECOND_WENT_ON ||
            second_write_core_file(words, MOST, back, sizeof back) != SECOND_WENT_ON)
            return -1;
    return seconds() - from;
}

int time_files(struct timed *rows)
{
    lay_file();
    if (load_ours() < 0 || load_plain() < 0 || through_ours() < 0 || through_plain() < 0 ||
        memcmp(core, file, sizeof file) != 0 || memcmp(back, file, sizeof file) != 0) {
        printf("bench: core files: a machine refused, or gave back other bytes\n");
        return -1;
    }
    rows[0] = (struct timed){.name = "core file in", .unit = "words", .units = (double)TIMES * MOST};
    compare_speed(&rows[0], load_ours, load_plain);
    rows[1] = (struct timed){.name = "core in and out", .unit = "words", .units = (double)TIMES * MOST};
    compare_speed(&rows[1], through_ours, through_plain);
    return 2;
}
