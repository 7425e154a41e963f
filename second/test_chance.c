/* Properties over chance states and chance programs; written from paper 01 alone. */
#include "selftest.h"

#include <string.h>

enum { SMALL = 400, STATES = 300000, PROGRAMS = 20000 };

static uint64_t core_before[CORE_ROOM];

/* What a watched step or run touched. */
struct touched {
    bool fetched[CORE_ROOM], written[CORE_ROOM];
    unsigned fetches, writes;
};
static struct touched touched;

static void note_fetch(void *watcher, uint64_t address)
{
    struct touched *t = watcher;
    t->fetched[address] = true;
    t->fetches++;
}

static void note_write(void *watcher, uint64_t address)
{
    struct touched *t = watcher;
    t->written[address] = true;
    t->writes++;
}

static const struct second_watch notes = {note_fetch, note_write, &touched};

/* A word of a kind by chance, its fields mostly small enough to be good. */
static uint64_t chance_word(void)
{
    uint64_t near = chance(SMALL + 20), other = chance(SMALL + 20);
    switch (chance(7)) {
    case 0: return chance(12);
    case 1: return MINUS(chance(12));
    case 2: return data(chance(12), near);
    case 3: return program(other, near) | chance(4) << 42;
    case 4: return ON(0) | ON(1) | chance(8) << 33 | chance(4) << 30 | other << 15 | near;
    case 5: return chance(UINT64_C(1) << 40) << 8 | chance(256);
    default: return LARGEST - chance(3);
    }
}

static unsigned chance_syllable(void)
{
    return chance(3) == 0 ? (unsigned)chance(4096) : operators[chance(OPERATORS)];
}

static void chance_state(void)
{
    length = 1 + (size_t)chance(SMALL);
    for (size_t i = 0; i < length; i++)
        core[i] = chance_word();
    g = (struct second_registers){
        .S = chance(SMALL), .F = chance(SMALL), .C = chance(length + length / 8 + 1),
        .R = chance(7), .L = chance(4), .SALF = chance(2), .MSFF = chance(2)};
    if (chance(2))
        set_a(chance_word());
    if (chance(2))
        set_b(chance_word());
    if (g.C < length)
        for (unsigned i = 0; i < 4; i++)
            core[g.C] = (core[g.C] << 12 | chance_syllable()) % ON(-1);
}

/* What holds of any single step; `before` is the state it started from. */
static bool step_is_good(int number, const struct second_registers *before)
{
    bool whole = number == 0 || number == 17, in_core = before->C < length;
    bool same = memcmp(&g, before, sizeof g) == 0;
    if (touched.fetches != in_core || touched.writes > 4 || (!in_core && number != 11))
        return false;
    for (size_t i = 0; i < length; i++) {
        if (core[i] >> 48 != 0 || (core[i] != core_before[i] && !(whole && touched.written[i])))
            return false;
    }
    if (!whole && !same)
        return false;
    /* A budget of 0 makes the checks only: the new registers are in range. */
    uint64_t done;
    return second_run(core, length, &g, 0, &done) == 0;
}

static void steps_by_chance(void)
{
    unsigned count[64] = {0};
    bool good = true;
    for (int i = 0; i < STATES && good; i++) {
        chance_state();
        struct second_registers before = g;
        memcpy(core_before, core, sizeof *core * length);
        memset(touched.written, 0, length);
        touched.fetches = touched.writes = 0;
        int number = second_step_watched(core, length, &g, &notes);
        good = number < 64 && step_is_good(number, &before);
        count[good ? number : 0]++;
    }
    check("a step by chance", good);
    static const int numbers[] = {0, 11, 12, 13, 14, 15, 17, 19, 20, 21};
    for (size_t i = 0; i < sizeof numbers / sizeof *numbers; i++)
        good = good && count[numbers[i]] > 0;
    check("every number was met", good);
}

/* A run equals its steps, in answer, count, registers and core. */
static void runs_by_chance(void)
{
    static uint64_t core_run[CORE_ROOM];
    bool good = true;
    for (int i = 0; i < STATES / 30 && good; i++) {
        chance_state();
        struct second_registers run = g;
        uint64_t budget = chance(200), done, steps = 0;
        memcpy(core_run, core, sizeof *core * length);
        int answer = second_run(core_run, length, &run, budget, &done), number = 0;
        while (number == 0 && steps < budget) {
            number = second_step(core, length, &g);
            steps += number == 0 || number == 17;
        }
        good = answer == number && done == steps && memcmp(&run, &g, sizeof g) == 0 &&
               memcmp(core_run, core, sizeof *core * length) == 0;
    }
    check("a run by chance equals its steps", good);
}

/* A program under construction: code at 0, stack 101 to 160, table at 192, arrays at 300. */
enum { CODE_ROOM = 128, STACK_S = 100, STACK_ROOM = 60, TABLE = 192, ARRAY = 300 };
static unsigned code[CODE_ROOM];
static unsigned made;

static void make(unsigned syllable) { code[made++] = syllable; }

static unsigned number_cell(void) { return 8 + (unsigned)chance(4); }
static unsigned array_cell(void) { return 20 + (unsigned)chance(2); }

/* Leaves one literal or number. */
static void make_word(unsigned depth)
{
    unsigned choice = (unsigned)chance(depth == 0 ? 2 : 9);
    if (choice == 0) {
        make(LITC(chance(12)));
    } else if (choice == 1) {
        make(OPDC(number_cell()));
    } else if (choice == 2) {
        make_word(depth - 1);
        make(OPDC(array_cell()));
    } else if (choice == 3) {
        make(DESC(number_cell()));
        make(LOD);
    } else if (choice == 4) {
        make_word(depth - 1);
        make(chance(2) ? CHS : LNG);
    } else if (choice == 5) {
        make_word(depth - 1);
        make(LITC(number_cell()));
        make(SND);
    } else if (choice == 6) {
        make_word(depth - 1);
        make(chance(2) ? TOP : DUP);
        make(ADD);
    } else {
        make_word(depth - 1);
        make_word(depth - 1);
        make(operators[chance(14)]);
    }
}

/* Leaves nothing. */
static void make_statement(void)
{
    unsigned choice = (unsigned)chance(5);
    if (choice == 0) {
        make_word(1);
        make(LITC(1 + chance(30)));
        make(chance(2) ? BFC : BBC);
        return;
    }
    make_word(2);
    if (choice == 1) {
        make(LITC(chance(10)));
        make(DESC(array_cell()));
        make(STD);
    } else if (choice == 2) {
        make(DESC(number_cell()));
        make(XCH);
        make(XCH);
        make(STD);
    } else {
        make(LITC(number_cell()));
        make(STD);
    }
}

static void make_program(void)
{
    made = 0;
    start(600);
    for (unsigned i = 0; i < 8; i++)
        make_statement();
    while (made % 4 != 2)
        make(NOP);
    make(LITC(1 + chance(made + 2)));
    make(chance(8) ? BBW : COM);
    if (chance(3) == 0)
        code[chance(made)] = chance_syllable();
    put_code(0, code, made);
    for (unsigned i = 8; i < 12; i++)
        core[TABLE + i] = chance(4) ? chance(12) : MINUS(chance(12));
    core[TABLE + 20] = data(10, ARRAY);
    core[TABLE + 21] = data(30, ARRAY + 5);
    g = (struct second_registers){.S = STACK_S, .R = TABLE / 64};
}

static int inspect_program(void)
{
    const uint8_t sheet[30] = {
        1, 0, 0, 0, 0, (uint8_t)(made / 4),
        2, 0, 0, STACK_S, 0, STACK_ROOM,
        5, 0, 0, TABLE / 64, 0, 64,
        3, 0, 0, 8, 0, 4,
        4, 0, 0, 20, 0, 2};
    uint64_t place;
    return second_inspect(core, length, sheet, sizeof sheet, &place);
}

static bool may_write(size_t i)
{
    return (i > STACK_S && i <= STACK_S + STACK_ROOM) || (i >= TABLE + 8 && i < TABLE + 12) ||
           (i >= ARRAY && i < ARRAY + 35);
}

/* An inspected program fetches in its code, writes in its own words, and meets only
   these numbers. */
static bool runs_safely(void)
{
    uint64_t done;
    memset(&touched, 0, sizeof touched);
    int number = second_run_watched(core, length, &g, 500, &done, &notes);
    for (size_t i = 0; i < length; i++)
        if ((touched.fetched[i] && i >= made / 4) || (touched.written[i] && !may_write(i)))
            return false;
    return number == 0 || number == 15 || number == 17 || number == 20 || number == 21;
}

static void programs_by_chance(void)
{
    unsigned passed = 0, refused = 0;
    bool good = true;
    for (int i = 0; i < PROGRAMS && good; i++) {
        make_program();
        if (inspect_program() != 0) {
            refused++;
            continue;
        }
        passed++;
        good = runs_safely();
    }
    check("an inspected program keeps to its words", good);
    check("programs were passed and refused", passed > 100 && refused > 100);
}

void test_chance(void)
{
    steps_by_chance();
    runs_by_chance();
    programs_by_chance();
}
