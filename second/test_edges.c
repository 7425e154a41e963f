/* Checks, fetch, advance and the run; written from paper 01 alone. */
#include "selftest.h"

static void checks_of_core(void)
{
    start(128);
    check("core of no words", second_step(core, 0, &g) == 1);
    check("core of too many words", second_step(core, 32769, &g) == 1);
    g.L = 4;
    check("1 before 3", second_step(core, 0, &g) == 1);
    core[127] = UINT64_C(1) << 48;
    check("2 before 3", stops(2));
    length = 127;
    check("a word past the length is not looked at", stops(3));
}

/* One register set to a value in a good state. */
static bool register_answers(uint64_t *which, uint64_t value, int number)
{
    start(CORE_ROOM);
    for (size_t i = 0; i < CORE_ROOM; i++)
        CODE_AT(i, NOP, NOP, NOP, NOP);
    set_a(1);
    set_b(1);
    *which = value;
    return number == 0 ? go(1) == 0 : stops(number);
}

static void checks_of_registers(void)
{
    uint64_t word = UINT64_C(1) << 48, huge = UINT64_MAX;
    check("A", register_answers(&g.A, word - 1, 0) && register_answers(&g.A, word, 3));
    check("B", register_answers(&g.B, word - 1, 0) && register_answers(&g.B, huge, 3));
    check("S", register_answers(&g.S, 32767, 0) && register_answers(&g.S, 32768, 3));
    check("F", register_answers(&g.F, 32767, 0) && register_answers(&g.F, 32768, 3));
    check("C", register_answers(&g.C, 32767, 0) && register_answers(&g.C, 32768, 3));
    check("R", register_answers(&g.R, 511, 0) && register_answers(&g.R, 512, 3));
    check("L", register_answers(&g.L, 3, 0) && register_answers(&g.L, 4, 3));
    check("SALF", register_answers(&g.SALF, 1, 0) && register_answers(&g.SALF, 2, 3));
    check("MSFF", register_answers(&g.MSFF, 1, 0) && register_answers(&g.MSFF, 2, 3));
    check("full marks", register_answers(&g.a_full, 2, 3) && register_answers(&g.b_full, huge, 3));
    check("A empty, not 0", register_answers(&g.a_full, 0, 3));
    check("B empty, not 0", register_answers(&g.b_full, 0, 3));
}

static void advance(void)
{
    start(CORE_ROOM);
    CODE_AT(32767, NOP, NOP, NOP, LITC(5));
    g.C = 32767;
    g.L = 3;
    check("32767, 3 advances to 0, 0", go(1) == 0 && g.C == 0 && g.L == 0 && only_a(5));
    start(1);
    CODE(NOP, NOP, NOP, NOP);
    check("a short core sets C to its length", go(4) == 0 && g.C == 1 && g.L == 0);
    check("then the fetch is 11", stops(11));
    start(128);
    CODE(LITC(1), LITC(2), OPDC(1), DESC(3));
    core[65] = 7;
    check("L=0 is leftmost", go(3) == 0 && both(7, 2) && g.S == 32 && core[32] == 1);
}

static int run(uint64_t budget, uint64_t *completed)
{
    return second_run(core, length, &g, budget, completed);
}

static void run_checks(void)
{
    uint64_t done = 99;
    start(128);
    check("budget 0", run(0, &done) == 0 && done == 0 && g.L == 0);
    check("budget 0 makes the checks", second_run(core, 0, &g, 0, &done) == 1);
    check("5", run(1000001, &done) == 5 && done == 0);
    g.R = 512;
    check("3 before 5", run(1000001, &done) == 3 && g.R == 512);
    core[5] = UINT64_MAX;
    check("2 before 3", run(1000001, &done) == 2);
    start(128);
    CODE(LITC(2), BBW);
    check("budget 1,000,000", run(1000000, &done) == 0 && done == 1000000 && g.L == 0);
}

static void run_stops(void)
{
    uint64_t done;
    start(128);
    CODE(LITC(5), LITC(7), ADD, COM, LITC(1));
    check("COM counts", run(1000, &done) == 17 && done == 4 && g.C == 1 && core[73] == 12);
    start(128);
    CODE(LITC(5), LITC(7), ADD, COM);
    check("COM as the last of the budget", run(4, &done) == 17 && done == 4);
    start(128);
    CODE(LITC(5), LITC(7), ADD, COM);
    check("budget spent before COM", run(3, &done) == 0 && done == 3 && only_b(12));
    start(128);
    CODE(LITC(5), LITC(0), IDV, COM);
    check("only the stopped syllable is undone",
          run(1000, &done) == 21 && done == 2 && both(0, 5) && g.C == 0 && g.L == 2);
    start(128);
    CODE(LITC(11), LITC(12), LITC(13), LITC(14), LITC(15), LITC(16));
    g.S = 60;
    check("a run into the table", run(1000, &done) == 12 && done == 5 && g.S == 63 &&
                                      both(15, 14) && core[63] == 13);
}

/* Tells what was watched. */
struct seen {
    uint64_t fetches, writes, last_fetch, last_write;
};

static void see_fetch(void *watcher, uint64_t address)
{
    struct seen *seen = watcher;
    seen->fetches++;
    seen->last_fetch = address;
}

static void see_write(void *watcher, uint64_t address)
{
    struct seen *seen = watcher;
    seen->writes++;
    seen->last_write = address;
}

static void watch(void)
{
    struct seen seen = {0, 0, 0, 0};
    struct second_watch both_hooks = {see_fetch, see_write, &seen};
    struct second_watch no_hooks = {NULL, NULL, NULL};
    uint64_t done;
    start(128);
    CODE(MKS, LITC(3), COM);
    check("a watched step", second_step_watched(core, length, &g, &both_hooks) == 0 &&
                                seen.fetches == 1 && seen.last_fetch == 0 &&
                                seen.writes == 1 && seen.last_write == 32);
    check("a watched run", second_run_watched(core, length, &g, 9, &done, &both_hooks) == 17 &&
                               done == 2 && seen.fetches == 3 && seen.last_write == 73);
    g.C = 0;
    g.L = 1;
    check("no hooks", second_step_watched(core, length, &g, &no_hooks) == 0 &&
                          second_step_watched(core, length, &g, NULL) == 17);
}

void test_edges(void)
{
    checks_of_core();
    checks_of_registers();
    advance();
    run_checks();
    run_stops();
    watch();
}
