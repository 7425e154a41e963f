/* What the tests share, written from paper 01 alone. */
#ifndef SECOND_SELFTEST_H
#define SECOND_SELFTEST_H

#include <stdbool.h>
#include <stddef.h>
#include <stdint.h>

#include "codes.h"
#include "fifty_five_second.h"

/* The operators, in the paper's order. */
enum { OPERATORS = 36 };
extern const unsigned operators[OPERATORS];

/* Bit n of a word, and the largest magnitude. */
#define ON(n) (UINT64_C(1) << (47 - (n)))
#define LARGEST ((UINT64_C(1) << 39) - 1)
#define MINUS(m) (ON(1) | (uint64_t)(m))

enum { CORE_ROOM = 32768 };

/* The bench: one core and one set of registers. */
extern uint64_t core[CORE_ROOM];
extern size_t length;
extern struct second_registers g;

/* Core of `words` words of 0; C=0, R=1, S=31, the rest 0, empty or off. */
void start(size_t words);
/* Syllables from word `at` on. */
void put_code(size_t at, const unsigned *syllables, size_t n);
#define CODE_AT(at, ...)                                                                \
    put_code((at), (const unsigned[]){__VA_ARGS__},                                     \
             sizeof((const unsigned[]){__VA_ARGS__}) / sizeof(unsigned))
#define CODE(...) CODE_AT(0, __VA_ARGS__)
void set_a(uint64_t word);
void set_b(uint64_t word);

/* A present data descriptor, a present program descriptor without and with argument. */
uint64_t data(uint64_t size, uint64_t address);
uint64_t program(uint64_t f, uint64_t address);
uint64_t argument(uint64_t f, uint64_t address);

/* The steps up to the n-th all went on; answers the number of the last. */
int go(int n);
/* One step gives this number and leaves registers and core as they were. */
bool stops(int number);
/* A is full with one word and B empty; B full and A empty; both full; both empty. */
bool only_a(uint64_t a);
bool only_b(uint64_t b);
bool both(uint64_t a, uint64_t b);
bool none(void);

/* Counts a case, and prints its name if it failed. */
void check(const char *name, bool passed);

/* The same numbers on every machine. */
uint64_t chance(uint64_t below);

void test_words(void);
void test_calls(void);
void test_edges(void);
void test_inspect(void);
void test_files(void);
void test_chance(void);

#endif
