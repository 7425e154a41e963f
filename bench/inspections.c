/* The inspector on the longest segment that passes: 4,096 syllables, a table of 1,024 cells, arrays of 1,023 words. */
#include "bench.h"
#include "../second/codes.h"

#include <string.h>

enum { TIMES = 20, CODE = 1024, SYLLABLES = 4 * CODE, TABLE_AT = 64 * 32, CELLS = 1024, ARRAYS = 8, ARRAY_WORDS = 1023 };
enum { NUMBERS = CELLS - ARRAYS, STACK_AT = 1024, ROOM = 4, ARRAYS_AT = 4096, LENGTH = 12288, RECORDS = 5 };

static uint64_t words[LENGTH];
static uint8_t bytes[WORD * LENGTH], sheet[WORD * RECORDS];

static void lay_record(unsigned i, unsigned kind, unsigned first, unsigned count)
{
    const uint8_t record[WORD] = {(uint8_t)kind, 0, (uint8_t)(first >> 8), (uint8_t)first, (uint8_t)(count >> 8), (uint8_t)count};
    memcpy(sheet + WORD * i, record, WORD);
}

/* Sums and stores over number cells and elements of an array, over and over; LITC 0, COM at the end. */
static void lay_segment(void)
{
    static const unsigned round[] = {
        OPDC(10), OPDC(NUMBERS), OPDC(11), ADD,
        OPDC(12), DESC(NUMBERS), STD, NOP,
    };
    for (unsigned i = 0; i < SYLLABLES; i++) {
        unsigned syllable = i < SYLLABLES - 8 ? round[i % 8] : i < SYLLABLES - 2 ? NOP : i < SYLLABLES - 1 ? LITC(0) : COM;
        words[i / 4] |= (uint64_t)syllable << (36 - 12 * (i % 4));
    }
    for (unsigned i = 0; i < ARRAYS; i++)
        words[TABLE_AT + NUMBERS + i] = UINT64_C(5) << 45 | (uint64_t)ARRAY_WORDS << 30 | (ARRAYS_AT + ARRAY_WORDS * i);
    lay_record(0, 1, 0, CODE);
    lay_record(1, 2, STACK_AT, ROOM);
    lay_record(2, 5, TABLE_AT / 64, CELLS);
    lay_record(3, 3, 0, NUMBERS);
    lay_record(4, 4, NUMBERS, ARRAYS);
    words_to_bytes(words, LENGTH, bytes);
}

/* Ours makes words of the core's bytes within the call; that time is in it. */
static double inspect_ours(void)
{
    uint64_t place;
    double from = seconds();
    for (int i = 0; i < TIMES; i++)
        if (fifty_five_inspect(bytes, sizeof bytes, sheet, sizeof sheet, &place) != FIFTY_FIVE_WENT_ON)
            return -1;
    return seconds() - from;
}

static double inspect_plain(void)
{
    uint64_t place;
    double from = seconds();
    for (int i = 0; i < TIMES; i++)
        if (second_inspect(words, LENGTH, sheet, sizeof sheet, &place) != SECOND_WENT_ON)
            return -1;
    return seconds() - from;
}

int time_inspections(struct timed *rows)
{
    lay_segment();
    if (inspect_ours() < 0 || inspect_plain() < 0) {
        printf("bench: the inspector: the segment does not pass\n");
        return -1;
    }
    rows[0] = (struct timed){.name = "inspector", .unit = "syllables", .units = (double)TIMES * SYLLABLES};
    compare_speed(&rows[0], inspect_ours, inspect_plain);
    return 1;
}
