/* Words of six bytes, the highest first, and their fields. For showing only: the library decides. */
#ifndef WORDS_H
#define WORDS_H

#include <stddef.h>
#include <stdint.h>

/* The word at a place of a row of words. */
uint64_t word_at(const uint8_t *words, size_t place);

/* Writes the low 48 bits of a word. */
void put_word(uint8_t *words, size_t place, uint64_t word);

/* Bits from..to of a word, bit 0 being the highest. */
uint64_t word_field(uint64_t word, unsigned from, unsigned to);

/* What a word is, in words: its value or its fields. */
void word_meaning(uint64_t word, char *text, size_t room);

#endif
