/* Checks 1, 2 and 3, written from paper 01 alone. */
#include "checks.h"
#include "words.h"

/* 1 is "core length 0 or over 32,768", 2 is "a core word at or above 2^48". */
int second_check_core(const uint64_t *core, size_t length)
{
    if (length == 0 || length > CORE_LIMIT)
        return SECOND_CORE_LENGTH;
    uint64_t any = 0;
    for (size_t i = 0; i < length; i++)
        any |= core[i];
    return any < WORD_LIMIT ? SECOND_WENT_ON : SECOND_CORE_WORD;
}

/* "A, B (48 bits, each full or empty; empty holds 0)" */
static bool good_word(uint64_t word, uint64_t full)
{
    return full == 1 ? word < WORD_LIMIT : full == 0 && word == 0;
}

/* "S, F, C (15 bits), R (9), L (2), flags SALF, MSFF" */
static bool good_registers(const struct second_registers *g)
{
    return good_word(g->A, g->a_full) && good_word(g->B, g->b_full) &&
           g->S < 32768 && g->F < 32768 && g->C < 32768 && g->R < 512 && g->L < 4 &&
           g->SALF < 2 && g->MSFF < 2;
}

int second_check_state(const uint64_t *core, size_t length, const struct second_registers *g)
{
    int number = second_check_core(core, length);
    if (number != SECOND_WENT_ON)
        return number;
    return good_registers(g) ? SECOND_WENT_ON : SECOND_REGISTER;
}
