/* The trial program's line, written from paper 01 alone. */
#include <inttypes.h>
#include <stdio.h>

#include "fifty_five_second.h"

enum { RUNONE_WORDS = 4096, RUNONE_BUDGET = 1000 };

/* "A refused file prints its number alone on the line; over 4,096 words is 1." */
static int read_file(const uint8_t *bytes, size_t n, uint64_t core[RUNONE_WORDS])
{
    if (n % 6 != 0)
        return SECOND_FILE_LENGTH;
    if (n / 6 > RUNONE_WORDS)
        return SECOND_CORE_LENGTH;
    return second_read_core_file(bytes, n, core, n / 6);
}

/* "stop, completed, C, L, S in decimal, then cell 9 in sixteen octal digits" */
void second_runone(const uint8_t *bytes, size_t n, char line[SECOND_LINE_ROOM])
{
    /* "fills up to 4,096 words with 0, starts at C=0, R=1, S=31" */
    uint64_t core[RUNONE_WORDS] = {0};
    struct second_registers g = {.R = 1, .S = 31};
    uint64_t completed;
    int number = read_file(bytes, n, core);
    if (number != SECOND_WENT_ON) {
        snprintf(line, SECOND_LINE_ROOM, "%d\n", number);
        return;
    }
    number = second_run(core, RUNONE_WORDS, &g, RUNONE_BUDGET, &completed);
    snprintf(line, SECOND_LINE_ROOM,
             "%d %" PRIu64 " %" PRIu64 " %" PRIu64 " %" PRIu64 " %016" PRIo64 "\n", number,
             completed, g.C, g.L, g.S, core[64 + 9]);
}
