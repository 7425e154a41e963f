/* Words and registers of the second machine in the cabinet's form. */
#include "crossing.h"

void words_to_bytes(const uint64_t *words, size_t n, uint8_t *bytes)
{
    for (size_t i = 0; i < n; i++)
        for (unsigned j = 0; j < WORD; j++)
            bytes[WORD * i + j] = (uint8_t)(words[i] >> (40 - 8 * j) & 0xFF);
}

void bytes_to_words(const uint8_t *bytes, size_t n, uint64_t *words)
{
    for (size_t i = 0; i < n; i++) {
        words[i] = 0;
        for (unsigned j = 0; j < WORD; j++)
            words[i] = words[i] << 8 | bytes[WORD * i + j];
    }
}

/* The order of the row is the header's; the second machine's struct has another. */
void registers_to_row(const struct second_registers *g, uint8_t row[ROW])
{
    const uint64_t words[] = {
        [FIFTY_FIVE_A] = g->A, [FIFTY_FIVE_A_FULL] = g->a_full,
        [FIFTY_FIVE_B] = g->B, [FIFTY_FIVE_B_FULL] = g->b_full,
        [FIFTY_FIVE_S] = g->S, [FIFTY_FIVE_F] = g->F, [FIFTY_FIVE_C] = g->C,
        [FIFTY_FIVE_R] = g->R, [FIFTY_FIVE_L] = g->L,
        [FIFTY_FIVE_SALF] = g->SALF, [FIFTY_FIVE_MSFF] = g->MSFF};
    words_to_bytes(words, sizeof words / sizeof *words, row);
}

void row_to_registers(const uint8_t row[ROW], struct second_registers *g)
{
    uint64_t words[ROW / WORD];
    bytes_to_words(row, ROW / WORD, words);
    *g = (struct second_registers){
        .A = words[FIFTY_FIVE_A], .a_full = words[FIFTY_FIVE_A_FULL],
        .B = words[FIFTY_FIVE_B], .b_full = words[FIFTY_FIVE_B_FULL],
        .S = words[FIFTY_FIVE_S], .F = words[FIFTY_FIVE_F], .C = words[FIFTY_FIVE_C],
        .R = words[FIFTY_FIVE_R], .L = words[FIFTY_FIVE_L],
        .SALF = words[FIFTY_FIVE_SALF], .MSFF = words[FIFTY_FIVE_MSFF]};
}

enum { UNTOUCHED = 0xA5 };

void put_guard(uint8_t *after)
{
    for (unsigned i = 0; i < GUARD; i++)
        after[i] = UNTOUCHED;
}

bool guarded(const uint8_t *after)
{
    for (unsigned i = 0; i < GUARD; i++)
        if (after[i] != UNTOUCHED)
            return false;
    return true;
}
