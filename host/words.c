#include "words.h"

#include <inttypes.h>
#include <stdio.h>

#include "../include/fifty_five.h"

uint64_t word_at(const uint8_t *words, size_t place)
{
    const uint8_t *at = words + place * FIFTY_FIVE_WORD_BYTES;
    uint64_t word = 0;

    for (int i = 0; i < FIFTY_FIVE_WORD_BYTES; i++)
        word = word << 8 | at[i];
    return word;
}

void put_word(uint8_t *words, size_t place, uint64_t word)
{
    uint8_t *at = words + place * FIFTY_FIVE_WORD_BYTES;

    for (int i = FIFTY_FIVE_WORD_BYTES; i-- > 0; word >>= 8)
        at[i] = (uint8_t)(word & 0xff);
}

uint64_t word_field(uint64_t word, unsigned from, unsigned to)
{
    return word >> (47 - to) & ((UINT64_C(1) << (to - from + 1)) - 1);
}

static void operand_meaning(uint64_t word, char *text, size_t room)
{
    const char *sign = word_field(word, 1, 1) ? "-" : "";

    if (word_field(word, 2, 8))
        snprintf(text, room, "operand, exponent not 0");
    else
        snprintf(text, room, "operand %s%" PRIu64, sign, word_field(word, 9, 47));
}

static void program_meaning(uint64_t word, char *text, size_t room)
{
    snprintf(text, room, "program, %s%s%s, at %05" PRIo64,
             word_field(word, 2, 2) ? "present" : "absent", word_field(word, 4, 4) ? ", mode" : "",
             word_field(word, 5, 5) ? ", argument" : "", word_field(word, 33, 47));
}

void word_meaning(uint64_t word, char *text, size_t room)
{
    if (!word_field(word, 0, 0))
        operand_meaning(word, text, room);
    else if (!word_field(word, 1, 1))
        snprintf(text, room, "data, %s, size %" PRIu64 ", at %05" PRIo64,
                 word_field(word, 2, 2) ? "present" : "absent", word_field(word, 8, 17),
                 word_field(word, 33, 47));
    else if (word_field(word, 3, 3))
        program_meaning(word, text, room);
    else
        snprintf(text, room, "control word, F %05" PRIo64, word_field(word, 18, 32));
}
