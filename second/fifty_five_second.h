/* A second word-mode B 5500, written from paper 01 alone. */
#ifndef FIFTY_FIVE_SECOND_H
#define FIFTY_FIVE_SECOND_H

#include <stddef.h>
#include <stdint.h>

/* "Numbers given back". */
enum second_number {
    SECOND_WENT_ON = 0,
    SECOND_CORE_LENGTH = 1,
    SECOND_CORE_WORD = 2,
    SECOND_REGISTER = 3,
    SECOND_FILE_LENGTH = 4,
    SECOND_BUDGET = 5,
    SECOND_ADDRESS = 11,
    SECOND_OVERFLOW = 12,
    SECOND_PRESENCE = 13,
    SECOND_FLAG = 14,
    SECOND_INDEX = 15,
    SECOND_COMMUNICATE = 17,
    SECOND_NOT_BUILT = 19,
    SECOND_NOT_WHOLE = 20,
    SECOND_ZERO_DIVISOR = 21,
    SECOND_SHEET_LENGTH = 30,
    SECOND_BAD_RECORD = 31,
    SECOND_BAD_AREA = 32,
    SECOND_BAD_CELL = 33,
    SECOND_BAD_SYLLABLE = 34,
    SECOND_BAD_TARGET = 35,
    SECOND_ARRAY_UNFIT = 36
};

/* Wide fields, so that a value out of range can be handed in and refused (3). */
struct second_registers {
    uint64_t A, B;
    uint64_t a_full, b_full;
    uint64_t S, F, C, R, L;
    uint64_t SALF, MSFF;
};

/*
 * Hooks, each NULL or called with the address of a word: `fetch` when a
 * syllable is read there, `write` when a word is written there, also if a
 * later part of the same syllable stops and the write is undone.
 */
struct second_watch {
    void (*fetch)(void *watcher, uint64_t address);
    void (*write)(void *watcher, uint64_t address);
    void *watcher;
};

/* One syllable; every number but 0 and 17 leaves registers and core as they were. */
int second_step(uint64_t *core, size_t length, struct second_registers *g);
int second_step_watched(uint64_t *core, size_t length, struct second_registers *g,
                        const struct second_watch *watch);

/* Syllables until a stop or until the budget is spent; COM counts as completed. */
int second_run(uint64_t *core, size_t length, struct second_registers *g,
               uint64_t budget, uint64_t *completed);
int second_run_watched(uint64_t *core, size_t length, struct second_registers *g,
                       uint64_t budget, uint64_t *completed,
                       const struct second_watch *watch);

/* Core files: six-byte records, highest byte first. A refusal writes nothing. */
int second_read_core_file(const uint8_t *bytes, size_t n, uint64_t *core, size_t length);
int second_write_core_file(const uint64_t *core, size_t length, uint8_t *room, size_t n);

/* The words an array cell names: core[*start] for *count words; 0 and 0 on a refusal. */
int second_hand_out(const uint64_t *core, size_t length, uint64_t r, uint64_t cell,
                    size_t *start, size_t *count);

/* The inspector: a number (0, 1, 2, 30 to 35) and a place. */
int second_inspect(const uint64_t *core, size_t length, const uint8_t *sheet, size_t n,
                   uint64_t *place);

/* The line that `runone` prints, line feed and closing zero included. */
enum { SECOND_LINE_ROOM = 128 };
void second_runone(const uint8_t *bytes, size_t n, char line[SECOND_LINE_ROOM]);

#endif
