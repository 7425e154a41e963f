/* Words and their layouts, written from paper 01 alone. */
#ifndef SECOND_WORDS_H
#define SECOND_WORDS_H

#include <stdbool.h>
#include <stdint.h>

/* The run is fast only if the parts of a syllable are folded into its loop. */
#if defined(__GNUC__)
#define PART static inline __attribute__((always_inline))
#else
#define PART static inline
#endif

/* "A word has 48 bits; bit 0 is the highest, bit 47 is worth 1." */
#define BIT(n) (UINT64_C(1) << (47 - (n)))
#define WORD_LIMIT (UINT64_C(1) << 48)

/* "Core has 1 to 32,768 words." */
#define CORE_LIMIT UINT64_C(32768)
#define SYLLABLE_LIMIT (4 * CORE_LIMIT)

/* "Bit 0 is the flag." */
#define FLAG BIT(0)
/* "Operand: flag off, bit 1 sign, bits 2-8 exponent ... 9-47 magnitude." */
#define SIGN BIT(1)
#define EXPONENT (UINT64_C(0177) << 39)
#define MAGNITUDE ((UINT64_C(1) << 39) - 1)
/* "Program descriptor: bits 0, 1, 3 on, 2 presence, 4 mode, 5 argument". */
#define PRESENCE BIT(2)
#define PROGRAM BIT(3)
#define MODE BIT(4)
#define ARGUMENT BIT(5)
/* "MSCW: 6-14 R, 16 MSFF, 17 SALF, 18-32 F." */
#define MARK_MSFF BIT(16)
#define MARK_SALF BIT(17)
/* "RCW: 2 descriptor call" */
#define RETURN_DESC BIT(2)

PART uint64_t field(uint64_t word, int first, int last)
{
    return word >> (47 - last) & ((UINT64_C(1) << (last - first + 1)) - 1);
}

PART uint64_t put(uint64_t value, int last)
{
    return value << (47 - last);
}

PART uint64_t address_of(uint64_t word) { return field(word, 33, 47); }
PART uint64_t f_field(uint64_t word) { return field(word, 18, 32); }
PART uint64_t size_of(uint64_t word) { return field(word, 8, 17); }
PART bool flagged(uint64_t word) { return (word & FLAG) != 0; }

/* "Data descriptor: flag on, bit 1 off". */
PART bool is_data(uint64_t word)
{
    return (word & (FLAG | SIGN)) == FLAG;
}

/* "Program descriptor: bits 0, 1, 3 on". */
PART bool is_program(uint64_t word)
{
    return (word & (FLAG | SIGN | PROGRAM)) == (FLAG | SIGN | PROGRAM);
}

/* "add ... to the address (also modulo 32,768)": the rest of the word stays. */
PART uint64_t add_to_address(uint64_t word, uint64_t more)
{
    uint64_t all = CORE_LIMIT - 1;
    return (word & ~all) | ((word + more) & all);
}

#endif
