/* Numbers, logic, single words and the stack; written from paper 01 alone. */
#include "selftest.h"

#include <string.h>

/* B op A from two full registers. */
static int two(unsigned operator, uint64_t b, uint64_t a)
{
    start(128);
    CODE(operator);
    set_b(b);
    set_a(a);
    return go(1);
}

static bool gives(unsigned operator, uint64_t b, uint64_t a, uint64_t result)
{
    return two(operator, b, a) == 0 && only_b(result);
}

static bool refuses(unsigned operator, uint64_t b, uint64_t a, int number)
{
    start(128);
    CODE(operator);
    set_b(b);
    set_a(a);
    return stops(number);
}

static void trial_sums(void)
{
    check("P1 5 7 SUB", gives(SUB, 5, 7, UINT64_C(02000000000000002)));
    check("P2 largest plus 0", gives(ADD, LARGEST, 0, LARGEST));
    check("P2 largest plus 1", refuses(ADD, LARGEST, 1, 20));
    check("P3 -0 EQL 0", gives(EQL, MINUS(0), 0, 1));
    check("P4 -7 IDV 2", gives(IDV, MINUS(7), 2, MINUS(3)));
    check("P4 -7 RDV 2", gives(RDV, MINUS(7), 2, MINUS(1)));
    check("P5 2^20 MUL 2^19", refuses(MUL, UINT64_C(1) << 20, UINT64_C(1) << 19, 20));
}

static void arithmetic(void)
{
    check("ADD same signs", gives(ADD, MINUS(3), MINUS(4), MINUS(7)));
    check("ADD to zero has sign off", gives(ADD, MINUS(5), 5, 0));
    check("ADD -0 and -0", gives(ADD, MINUS(0), MINUS(0), 0));
    check("ADD A larger", gives(ADD, 3, MINUS(10), MINUS(7)));
    check("SUB of a minus", gives(SUB, 3, MINUS(10), 13));
    check("SUB past 39 bits", refuses(SUB, MINUS(LARGEST), 1, 20));
    check("SUB to the least", gives(SUB, MINUS(LARGEST), 0, MINUS(LARGEST)));
    check("flags ignored, result flag off", gives(ADD, ON(0) | 2, ON(0) | 3, 5));
    check("MUL signs", gives(MUL, MINUS(6), 7, MINUS(42)));
    check("MUL by -0", gives(MUL, MINUS(6), MINUS(0), 0));
    check("MUL largest by 1", gives(MUL, LARGEST, MINUS(1), MINUS(LARGEST)));
    check("MUL largest by largest", refuses(MUL, LARGEST, LARGEST, 20));
    check("MUL 2^38 by 2", refuses(MUL, UINT64_C(1) << 38, 2, 20));
    check("MUL 2 by 2^38", refuses(MUL, 2, UINT64_C(1) << 38, 20));
    check("MUL 2^19 by 2^19", gives(MUL, UINT64_C(1) << 19, UINT64_C(1) << 19,
                                    UINT64_C(1) << 38));
    check("MUL to the largest", gives(MUL, 7, LARGEST / 7, LARGEST) &&
                                    gives(MUL, LARGEST / 7, 7, LARGEST));
    check("IDV 7 by -2", gives(IDV, 7, MINUS(2), MINUS(3)));
    check("IDV -1 by 2", gives(IDV, MINUS(1), 2, 0));
    check("RDV 7 by -2", gives(RDV, 7, MINUS(2), 1));
    check("RDV -6 by 2", gives(RDV, MINUS(6), 2, 0));
    check("IDV by 0", refuses(IDV, 1, 0, 21));
    check("RDV by -0", refuses(RDV, 1, MINUS(0), 21));
    check("IDV 0 by 0", refuses(IDV, 0, 0, 21));
    check("IDV exponent before zero", refuses(IDV, ON(8) | 1, 0, 20));
    check("exponent of A", refuses(ADD, 1, ON(5) | 1, 20));
    check("exponent is bit 2 alone", refuses(ADD, ON(2), 0, 20));
    check("exponent of a flagged word", refuses(MUL, ON(0) | ON(2), 0, 20));
}

/* Each relation over less, equal, greater. */
static bool relation(unsigned operator, uint64_t less, uint64_t equal, uint64_t greater)
{
    return gives(operator, MINUS(3), 2, less) && gives(operator, MINUS(3), MINUS(2), less) &&
           gives(operator, 3, 3, equal) && gives(operator, MINUS(0), 0, equal) &&
           gives(operator, 0, MINUS(0), equal) && gives(operator, 4, MINUS(9), greater) &&
           gives(operator, ON(0) | 4, 3, greater) && refuses(operator, ON(7), 0, 20);
}

static void relations(void)
{
    check("GTR", relation(GTR, 0, 0, 1));
    check("GEQ", relation(GEQ, 0, 1, 1));
    check("EQL", relation(EQL, 0, 1, 0));
    check("LEQ", relation(LEQ, 1, 1, 0));
    check("LSS", relation(LSS, 1, 0, 0));
    check("NEQ", relation(NEQ, 1, 0, 1));
}

/* A op from A full. */
static bool one(unsigned operator, uint64_t a, uint64_t result)
{
    start(128);
    CODE(operator);
    set_a(a);
    set_b(8);
    return go(1) == 0 && both(result, 8);
}

static void bits(void)
{
    uint64_t all = (ON(0) << 1) - 1;
    check("LND", gives(LND, ON(0) | 6, 3, ON(0) | 2));
    check("LND takes no flag of A", gives(LND, 6, ON(0) | 3, 2));
    check("LOR", gives(LOR, 6, ON(0) | 1, 7));
    check("LQV", gives(LQV, 6, ON(0) | 3, (all ^ ON(0)) ^ 5));
    check("LQV flag of B", gives(LQV, ON(0) | 6, 3, all ^ 5));
    check("logic looks at no exponent", gives(LOR, ON(2), ON(3), ON(2) | ON(3)));
    check("LNG", one(LNG, ON(0) | 5, all ^ 5));
    check("LNG of an operand", one(LNG, 0, all ^ ON(0)));
    check("MOP", one(MOP, ON(0) | 5, 5) && one(MOP, 5, 5));
    check("MDS", one(MDS, 5, ON(0) | 5) && one(MDS, ON(0), ON(0)));
    check("SSP", one(SSP, MINUS(5), 5) && one(SSP, 5, 5));
    check("SSN", one(SSN, 5, MINUS(5)) && one(SSN, MINUS(5), MINUS(5)));
    check("CHS", one(CHS, 0, MINUS(0)) && one(CHS, ON(0) | MINUS(1), ON(0) | 1));
}

static void test_of_operand(void)
{
    start(128);
    CODE(TOP);
    set_a(5);
    set_b(6);
    check("TOP of a number", go(1) == 0 && both(1, 5) && g.S == 32 && core[32] == 6);
    start(128);
    CODE(TOP);
    core[31] = ON(0);
    check("TOP of a flagged word, popped", go(1) == 0 && both(0, ON(0)) && g.S == 30);
}

static void exchanges(void)
{
    check("XCH", two(XCH, 1, ON(0)) == 0 && both(1, ON(0)));
    check("DUP pushes B", two(DUP, 1, 2) == 0 && both(2, 2) && g.S == 32 && core[32] == 1);
    check("DEL keeps B", two(DEL, 1, 2) == 0 && only_b(1));
    check("NOP", two(NOP, 1, 2) == 0 && both(2, 1) && g.L == 1);
    start(128);
    CODE(DUP);
    set_b(9);
    check("DUP takes B", go(1) == 0 && both(9, 9) && g.S == 31);
    start(128);
    CODE(DEL);
    core[31] = 4;
    check("DEL pops", go(1) == 0 && none() && g.S == 30 && core[31] == 4);
}

static void adjustments(void)
{
    start(128);
    CODE(XCH);
    core[31] = 4;
    core[30] = 3;
    check("both full from core", go(1) == 0 && both(3, 4) && g.S == 29);
    start(128);
    CODE(XCH);
    set_b(4);
    core[31] = 3;
    check("both full: B goes to A", go(1) == 0 && both(3, 4) && g.S == 30);
    start(128);
    CODE(LITC(7));
    set_a(1);
    check("A empty: moved to B", go(1) == 0 && both(7, 1) && g.S == 31);
    start(128);
    CODE(LITC(1023));
    set_b(1);
    check("A empty: nothing to do", go(1) == 0 && both(1023, 1) && g.S == 31);
}

/* The operator from registers, then from words in core: the same but for S. */
static bool pops(unsigned operator, unsigned words)
{
    start(128);
    CODE(operator);
    set_a(9);
    if (words == 2)
        set_b(6);
    int number = go(1);
    struct second_registers wanted = g;
    uint64_t stored = core[73];
    start(128);
    CODE(operator);
    core[31] = 9;
    core[30] = 6;
    wanted.S -= words;
    return go(1) == number && memcmp(&g, &wanted, sizeof g) == 0 && core[73] == stored;
}

static void words_taken(void)
{
    static const unsigned one_word[] = {LNG, MOP, MDS, SSP, SSN, CHS, DUP, DEL, LOD, BFW, COM};
    bool good = true;
    for (size_t i = 0; i < sizeof one_word / sizeof *one_word; i++)
        good = good && pops(one_word[i], 1);
    check("one word is popped", good);
    static const unsigned two_words[] = {ADD, SUB, MUL, IDV, RDV, GTR, GEQ, EQL, LEQ, LSS,
                                         NEQ, LND, LOR, LQV, XCH, STD, SND, INX, BFC};
    good = true;
    for (size_t i = 0; i < sizeof two_words / sizeof *two_words; i++)
        good = good && pops(two_words[i], 2);
    check("two words are popped", good);
}

static void push_and_pop(void)
{
    start(128);
    CODE(LITC(1));
    set_a(5);
    set_b(6);
    g.S = 62;
    check("P9 push from 62", go(1) == 0 && g.S == 63 && core[63] == 6);
    start(128);
    CODE(LITC(1));
    set_a(5);
    set_b(6);
    g.S = 63;
    check("P9 push from 63", stops(12));
    g.S = 127;
    check("push past the core", stops(11));
    g.R = 2;
    check("12 before 11", stops(12));
    start(CORE_ROOM);
    CODE(LITC(1));
    set_a(5);
    set_b(6);
    g.S = 32767;
    g.R = 511;
    check("push from 32,767", stops(11));
    g.R = 0;
    check("push from 32,767 does not wrap", stops(11));
    start(128);
    CODE(DEL);
    g.S = 0;
    check("pop at 0", stops(11));
    g.S = 128;
    check("pop outside core", stops(11));
    g.S = 127;
    check("pop of the last word", go(1) == 0 && g.S == 126);
}

static bool is_listed(unsigned syllable)
{
    for (unsigned i = 0; i < OPERATORS; i++)
        if (operators[i] == syllable)
            return true;
    return false;
}

static void every_syllable(void)
{
    bool good = true;
    for (unsigned syllable = 0; syllable < 4096; syllable++) {
        start(2048);
        CODE(syllable);
        g.S = 0; /* an adjustment would stop 11 before 19 */
        int number = go(1);
        bool built = syllable % 4 != 1 || is_listed(syllable);
        good = good && (number != 19) == built;
    }
    check("19 for every operator not listed, before any adjustment", good);
    start(128);
    CODE(00051);
    check("0051 is not DEL", stops(19));
}

void test_words(void)
{
    trial_sums();
    arithmetic();
    relations();
    bits();
    test_of_operand();
    exchanges();
    adjustments();
    words_taken();
    push_and_pop();
    every_syllable();
}
