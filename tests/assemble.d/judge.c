/*
 * judge CORE SHEET [AFTER]: what the second machine says of a segment. Prints the inspector's number and
 * place; if it passes, also the stop and the completed syllables of its run, and writes its core to AFTER.
 */
#include "../../second/fifty_five_second.h"

#include <stdio.h>

enum { WORD = 6, MOST_CORE = 32768, MOST_SHEET = 8192 };

/* Reads a file whole; a byte more than `most` is kept, so that the second machine sees it is too long. */
static size_t read_file(const char *name, uint8_t *bytes, size_t most)
{
    FILE *in = fopen(name, "rb");
    if (in == NULL)
        return 0;
    size_t length = fread(bytes, 1, most + 1, in);
    fclose(in);
    return length;
}

static unsigned two_bytes(const uint8_t *sheet, size_t at) { return (unsigned)sheet[at] << 8 | sheet[at + 1]; }

static int write_core(const char *name, const uint64_t *core, size_t length, uint8_t *bytes)
{
    FILE *out = fopen(name, "wb");
    if (out == NULL || second_write_core_file(core, length, bytes, WORD * length) != SECOND_WENT_ON)
        return 1;
    size_t written = fwrite(bytes, 1, WORD * length, out);
    return fclose(out) != 0 || written != WORD * length;
}

int main(int argc, char **argv)
{
    static uint8_t bytes[WORD * MOST_CORE + 1], sheet[MOST_SHEET + 1];
    static uint64_t core[MOST_CORE];
    if (argc != 3 && argc != 4)
        return 2;
    size_t length = read_file(argv[1], bytes, WORD * MOST_CORE), n = read_file(argv[2], sheet, MOST_SHEET);
    int number = second_read_core_file(bytes, length, core, length / WORD);
    uint64_t place = 0, completed;
    if (number == SECOND_WENT_ON)
        number = second_inspect(core, length / WORD, sheet, n, &place);
    if (number != SECOND_WENT_ON) {
        printf("refused; %d, place %llu.\n", number, (unsigned long long)place);
        return 0;
    }
    /* "Start: C first code word, L, F 0, A, B empty, SALF, MSFF off."; S and R are the sheet's */
    struct second_registers g = {.C = two_bytes(sheet, 2), .S = two_bytes(sheet, 8), .R = two_bytes(sheet, 14)};
    number = second_run(core, length / WORD, &g, 1000000, &completed);
    printf("passes; stop %d, completed %llu.\n", number, (unsigned long long)completed);
    return argc == 4 ? write_core(argv[3], core, length / WORD, bytes) : 0;
}
