/* The cabinet's form of a state: six-byte words, and the row of registers. */
#ifndef SECOND_CROSSING_H
#define SECOND_CROSSING_H

#include <stdbool.h>
#include <stddef.h>
#include <stdint.h>

#include "../../../include/fifty_five.h"
#include "../../fifty_five_second.h"

enum { MOST = FIFTY_FIVE_MOST_WORDS, WORD = FIFTY_FIVE_WORD_BYTES, ROW = FIFTY_FIVE_ROW_BYTES };

void words_to_bytes(const uint64_t *words, size_t n, uint8_t *bytes);
void bytes_to_words(const uint8_t *bytes, size_t n, uint64_t *words);
void registers_to_row(const struct second_registers *g, uint8_t row[ROW]);
void row_to_registers(const uint8_t row[ROW], struct second_registers *g);

/* Bytes after a buffer that nobody may touch. */
enum { GUARD = 16 };
void put_guard(uint8_t *after);
bool guarded(const uint8_t *after);

#endif
