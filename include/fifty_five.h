/*
 * The word-mode B 5500 for a host program in C, over numbers and bytes: load, step, run, the words
 * of an array cell, the inspection of a segment, and its posting.
 * Link with target/staticlib/libcabinet.a, which `.ci/build cabinet` writes (x86-64).
 *
 * Bytes. A core is 1 to 32,768 words of six bytes, the highest byte first: the form of a core
 * file. A register set is a row of eleven such words, 66 bytes, in the order of enum
 * fifty_five_register. A full mark, SALF and MSFF are 0 or 1. A sheet is 3 to 1,027 records of six
 * bytes: kind, 0, first (two bytes), count (two bytes), the highest byte first.
 *
 * Buffers. The caller owns every buffer and lends it for the call; nothing is kept after it.
 * A length is in bytes. No pointer is NULL, and no two buffers of a call overlap: this is the
 * one thing that is not checked. Any lengths and any bytes are taken. A call needs 300 KB of
 * stack and no heap.
 *
 * Answers. Each call answers one of the numbers below. 1 to 5 and 30 to 36 refuse: no core and no
 * register set was written. The checks are made in the order 4, 1, 3, then 30 to 36, then 5; the
 * first that fails is the answer.
 * (Paper 01's 2, a word at or above 2^48, cannot come: six bytes say no such word.)
 */
#ifndef FIFTY_FIVE_H
#define FIFTY_FIVE_H

#include <stddef.h>
#include <stdint.h>

#ifdef __cplusplus
extern "C" {
#endif

enum fifty_five_number {
    FIFTY_FIVE_WENT_ON = 0,       /* went on, or the budget is spent; no rule broken; words found */
    FIFTY_FIVE_CORE_LENGTH = 1,   /* a core of no words or over 32,768; load: not of the file's length */
    FIFTY_FIVE_REGISTER = 3,      /* a row that is not 66 bytes, a register out of range, a mark
                                     or flag neither 0 nor 1, an empty register not 0;
                                     hand_out: R over 511 or a cell over 1,023 */
    FIFTY_FIVE_FILE_LENGTH = 4,   /* bytes of a core that are no multiple of 6 */
    FIFTY_FIVE_BUDGET = 5,        /* a budget over 1,000,000 */
    FIFTY_FIVE_ADDRESS = 11,      /* an address outside core */
    FIFTY_FIVE_OVERFLOW = 12,     /* the stack meets the reference table */
    FIFTY_FIVE_PRESENCE = 13,     /* a descriptor that is not present */
    FIFTY_FIVE_FLAG = 14,         /* a flag on where an operand is due, or off where a control word is */
    FIFTY_FIVE_INDEX = 15,        /* an index below 0 or not below the size */
    FIFTY_FIVE_COMMUNICATE = 17,  /* COM: the syllable completed */
    FIFTY_FIVE_NOT_BUILT = 19,    /* an operator or a mode that is not built */
    FIFTY_FIVE_NOT_WHOLE = 20,    /* a number that is not whole, or past 39 bits */
    FIFTY_FIVE_ZERO_DIVISOR = 21, /* a division by zero */
    FIFTY_FIVE_SHEET_LENGTH = 30, /* a sheet that is not 3 to 1,027 records of six bytes */
    FIFTY_FIVE_SHEET_RECORD = 31, /* a record of a wrong kind, range or order */
    FIFTY_FIVE_SHEET_PLACES = 32, /* code, stack words or table outside core, or meeting */
    FIFTY_FIVE_SHEET_CELL = 33,   /* a cell that does not hold what the sheet says of it */
    FIFTY_FIVE_SHEET_SYLLABLE = 34, /* a syllable that may not stand there */
    FIFTY_FIVE_SHEET_TARGET = 35, /* a branch out of the code, or to where items are on the stack */
    FIFTY_FIVE_ARRAY_CELL = 36    /* a cell outside core, or one that names no words wholly in core */
};

/* The words of a register set, in their order. */
enum fifty_five_register {
    FIFTY_FIVE_A, FIFTY_FIVE_A_FULL, FIFTY_FIVE_B, FIFTY_FIVE_B_FULL,
    FIFTY_FIVE_S, FIFTY_FIVE_F, FIFTY_FIVE_C, FIFTY_FIVE_R, FIFTY_FIVE_L,
    FIFTY_FIVE_SALF, FIFTY_FIVE_MSFF
};

enum {
    FIFTY_FIVE_WORD_BYTES = 6,
    FIFTY_FIVE_MOST_WORDS = 32768,
    FIFTY_FIVE_ROW_BYTES = 66
};

/*
 * Checks a core file and copies it to a core of its exact length.
 * Answers 0, 4 (the file's length) or 1 (the file's word count, then the core's length).
 */
uint64_t fifty_five_load(const uint8_t *file, size_t file_length, uint8_t *core, size_t core_length);

/*
 * One syllable: moves core and registers on where they stand.
 * Answers 0 or 17 (the syllable completed), 4, 1, 3 in this order, or a stop, 11 to 21.
 * Every number but 0 and 17 leaves core and registers as they were.
 */
uint64_t fifty_five_step(uint8_t *core, size_t core_length, uint8_t *registers, size_t registers_length);

/*
 * Syllables until a stop, or until `budget` are completed.
 * Answers 0 (the budget is spent), 17, 4, 1, 3, 5 in this order, or the stop of the last syllable;
 * core and registers are then as before that syllable. *completed is the count of completed
 * syllables, COM included. It is written by every call, 0 by a refusal (1 to 5).
 */
uint64_t fifty_five_run(uint8_t *core, size_t core_length, uint8_t *registers, size_t registers_length,
                        uint64_t budget, uint64_t *completed);

/*
 * Where the words stand that the array cell `cell` of the reference table at 64 times `r` names.
 * Answers 0, 4, 1, 3 or 36, checked in this order. *start and *count are always written: with 0
 * the first word and how many words, all of them in core, so that word *start is at byte
 * 6 * *start of the caller's own core; with any other number 0 and 0.
 */
uint64_t fifty_five_hand_out(const uint8_t *core, size_t core_length, uint64_t r, uint64_t cell,
                             uint64_t *start, uint64_t *count);

/*
 * Inspects the program that a sheet describes. The records are: 0, kind 1, first code word and how
 * many; 1, kind 2, starting S and the stack's room; 2, kind 5, R and the table's length; then
 * kind 3, number cells, or kind 4, array cells, by first cell and how many.
 * Answers 0 (no rule is broken), 4, 1, or the first broken rule, 30 to 35, in this order.
 * *place is always written: the lowest place where that rule is broken, which is a record (31,
 * 32), a cell of the table (33) or a syllable of the code (34, 35), each counted from 0; and 0
 * with 0, 4, 1 and 30. Core and sheet are only read.
 */
uint64_t fifty_five_inspect(const uint8_t *core, size_t core_length, const uint8_t *sheet,
                            size_t sheet_length, uint64_t *place);

/*
 * Inspects a segment by its sheet and, where it passed, runs it from the sheet's start.
 * Answers 4, 1, 3 (registers not of 66 bytes), the inspector's 30 to 35, 5 in this order, or 0:
 * it was run. What the 66 bytes held before is not looked at.
 * *place is the inspector's place, *stop the number that the run gave, 0 (the budget is spent),
 * 15, 17, 20 or 21, *completed the count of completed syllables, COM included. All three are
 * written by every call, 0 where there is none.
 * By 0, core and registers are those after the run: outside stack words, number cells and array
 * words of the sheet the core is as it was. Any other number leaves core and registers as they
 * were.
 */
uint64_t fifty_five_post(uint8_t *core, size_t core_length, const uint8_t *sheet, size_t sheet_length,
                         uint64_t budget, uint8_t *registers, size_t registers_length, uint64_t *place,
                         uint64_t *stop, uint64_t *completed);

#ifdef __cplusplus
}
#endif

#endif
