/* Core files by chance: load copies what the second machine reads, or refuses by the same number. */
#include "cases.h"
#include "../machine/crossing.h"
#include "../maker/chance.h"

#include <stdio.h>
#include <string.h>

enum { LONGEST = WORD * (MOST + 2) };

static uint8_t file[LONGEST], core[LONGEST], before[LONGEST];
static uint64_t words[MOST + 2], second_words[MOST + 2];

static unsigned failed(uint64_t i, const char *what, uint64_t number, uint64_t expected)
{
    printf("compare: difference: files case %llu: %s, number %llu, expected %llu\n", (unsigned long long)i,
           what, (unsigned long long)number, (unsigned long long)expected);
    return 1;
}

static size_t chance_file_length(void)
{
    switch (chance(8)) {
    case 0: return 0;
    case 1: return (size_t)chance(40);
    case 2: return chance(40) != 0 ? 60 : (size_t)(WORD * MOST - 6 + chance(14));
    default: return WORD * (1 + (size_t)chance(60));
    }
}

unsigned group_files(uint64_t count)
{
    unsigned failures = 0;
    for (uint64_t i = 0; i < count; i++) {
        size_t n = chance_file_length(), room = chance(4) != 0 ? n : chance_file_length();
        for (size_t j = 0; j < n; j++)
            file[j] = (uint8_t)chance(256);
        memset(core, (int)(i % 256), room);
        memcpy(before, core, room);
        /* The second machine's core has whole words; other room is no core of the file's count. */
        memset(second_words, 0, sizeof *words * (room / WORD));
        uint64_t expected = (uint64_t)second_read_core_file(file, n, second_words, room / WORD);
        if (expected == 0 && room % WORD != 0)
            expected = FIFTY_FIVE_CORE_LENGTH;
        uint64_t number = fifty_five_load(file, n, core, room);
        if (number != expected)
            failures += failed(i, "the numbers differ", number, expected);
        if (number != 0 && memcmp(core, before, room) != 0)
            failures += failed(i, "a refusal has written", number, expected);
        if (number == 0) {
            bytes_to_words(core, room / WORD, words);
            if (memcmp(words, second_words, sizeof *words * (room / WORD)) != 0)
                failures += failed(i, "the words differ", number, expected);
            if (second_write_core_file(words, room / WORD, before, room) != 0 || memcmp(before, file, n) != 0)
                failures += failed(i, "the file written back differs", number, expected);
        }
    }
    return failures;
}
