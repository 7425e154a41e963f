/* Core files, written from paper 01 alone. */
#include "checks.h"
#include "words.h"

/* "Core file: six-byte records, highest byte first, no header." */
enum { RECORD = 6 };

/* "Reading a core file checks 4, then 1, into a core of its exact word count, else 1; a
   refusal writes nothing." */
int second_read_core_file(const uint8_t *bytes, size_t n, uint64_t *core, size_t length)
{
    if (n % RECORD != 0)
        return SECOND_FILE_LENGTH;
    size_t words = n / RECORD;
    if (words == 0 || words > CORE_LIMIT || words != length)
        return SECOND_CORE_LENGTH;
    for (size_t i = 0; i < words; i++) {
        uint64_t word = 0;
        for (size_t j = 0; j < RECORD; j++)
            word = word << 8 | bytes[RECORD * i + j];
        core[i] = word;
    }
    return SECOND_WENT_ON;
}

/* "Writing needs room of exactly six bytes a word, else 4, after 1 and 2." */
int second_write_core_file(const uint64_t *core, size_t length, uint8_t *room, size_t n)
{
    int number = second_check_core(core, length);
    if (number != SECOND_WENT_ON)
        return number;
    if (n != RECORD * length)
        return SECOND_FILE_LENGTH;
    for (size_t i = 0; i < length; i++)
        for (size_t j = 0; j < RECORD; j++)
            room[RECORD * i + j] = (uint8_t)(core[i] >> (40 - 8 * j) & 0xFF);
    return SECOND_WENT_ON;
}
