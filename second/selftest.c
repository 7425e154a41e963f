/* The tests' bench and the count, written from paper 01 alone. */
#include "selftest.h"

#include <stdio.h>
#include <string.h>

uint64_t core[CORE_ROOM];
size_t length;
struct second_registers g;

const unsigned operators[OPERATORS] = {
    ADD, SUB, MUL, IDV, RDV, GTR, GEQ, EQL, LEQ, LSS, NEQ, LND, LOR, LQV, LNG, MOP, MDS, SSP,
    SSN, CHS, TOP, XCH, DUP, DEL, NOP, LOD, STD, SND, INX, BFW, BBW, BFC, BBC, MKS, XIT, COM};

static unsigned passed_cases, failed_cases;

void check(const char *name, bool passed)
{
    if (passed) {
        passed_cases++;
        return;
    }
    failed_cases++;
    printf("failed: %s\n", name);
}

void start(size_t words)
{
    memset(core, 0, sizeof core);
    length = words;
    g = (struct second_registers){.R = 1, .S = 31};
}

void put_code(size_t at, const unsigned *syllables, size_t n)
{
    for (size_t i = 0; i < n; i++) {
        size_t shift = 36 - 12 * (i % 4);
        core[at + i / 4] &= ~((uint64_t)07777 << shift);
        core[at + i / 4] |= (uint64_t)syllables[i] << shift;
    }
}

void set_a(uint64_t word)
{
    g.A = word;
    g.a_full = 1;
}

void set_b(uint64_t word)
{
    g.B = word;
    g.b_full = 1;
}

uint64_t data(uint64_t size, uint64_t address)
{
    return ON(0) | ON(2) | size << 30 | address;
}

uint64_t program(uint64_t f, uint64_t address)
{
    return ON(0) | ON(1) | ON(2) | ON(3) | f << 15 | address;
}

uint64_t argument(uint64_t f, uint64_t address)
{
    return program(f, address) | ON(5);
}

int go(int n)
{
    for (int i = 1; i < n; i++)
        if (second_step(core, length, &g) != SECOND_WENT_ON)
            return -1;
    return second_step(core, length, &g);
}

static bool same_registers(const struct second_registers *x, const struct second_registers *y)
{
    return memcmp(x, y, sizeof *x) == 0;
}

bool stops(int number)
{
    static uint64_t core_before[CORE_ROOM];
    struct second_registers before = g;
    memcpy(core_before, core, sizeof core);
    return second_step(core, length, &g) == number && same_registers(&g, &before) &&
           memcmp(core, core_before, sizeof core) == 0;
}

bool only_a(uint64_t a)
{
    return g.a_full == 1 && g.A == a && g.b_full == 0 && g.B == 0;
}

bool only_b(uint64_t b)
{
    return g.b_full == 1 && g.B == b && g.a_full == 0 && g.A == 0;
}

bool both(uint64_t a, uint64_t b)
{
    return g.a_full == 1 && g.A == a && g.b_full == 1 && g.B == b;
}

bool none(void)
{
    return g.a_full == 0 && g.A == 0 && g.b_full == 0 && g.B == 0;
}

/* A linear congruence; its high bits are the good ones. */
uint64_t chance(uint64_t below)
{
    static uint64_t state = 5500;
    state = state * UINT64_C(6364136223846793005) + UINT64_C(1442695040888963407);
    return (state >> 24) % below;
}

int main(void)
{
    test_words();
    test_calls();
    test_edges();
    test_inspect();
    test_files();
    test_chance();
    printf("%u passed, %u failed\n", passed_cases, failed_cases);
    return failed_cases != 0;
}
