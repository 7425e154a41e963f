/* Addresses, calls, stores, branches, control words; written from paper 01 alone. */
#include "selftest.h"

static void patterns(void)
{
    start(4096);
    CODE(OPDC(1023));
    core[64 + 1023] = 5;
    check("SALF off: 64R+k", go(1) == 0 && only_a(5));
    start(4096);
    g.SALF = 1;
    CODE(OPDC(0777));
    core[64 + 511] = 6;
    check("pattern 0", go(1) == 0 && only_a(6));
    start(4096);
    g.SALF = 1;
    g.F = 1000;
    CODE(OPDC(01000 | 255), OPDC(01600 | 127), OPDC(01400 | 3), OPDC(01400 | 127));
    core[1255] = 7;
    core[1000 - 127] = 8;
    core[3] = 9;
    core[127] = 10;
    check("pattern 10", go(1) == 0 && only_a(7));
    check("pattern 111", go(1) == 0 && both(8, 7));
    check("pattern 110", go(1) == 0 && g.A == 9);
    check("pattern 110 at L=3 counts from its own word", go(1) == 0 && g.A == 10);
    start(4096);
    g.SALF = g.MSFF = 1;
    g.F = 1000;
    CODE(OPDC(01000 | 1), OPDC(01600 | 1));
    core[64 + 7] = UINT64_C(2000) << 15; /* any kind of word serves */
    core[2001] = 7;
    core[1999] = 8;
    check("base of 64R+7, pattern 10", go(1) == 0 && only_a(7));
    check("base of 64R+7, pattern 111", go(1) == 0 && both(8, 7));
}

static void address_stops(void)
{
    start(128);
    CODE(OPDC(64));
    check("not below core length", stops(11));
    CODE(OPDC(63));
    check("the last word", go(1) == 0 && g.a_full == 1);
    start(128);
    g.SALF = 1;
    g.F = 5;
    CODE(OPDC(01600 | 6));
    check("below 0", stops(11));
    CODE(OPDC(01600 | 5));
    check("address 0", go(1) == 0 && only_a(core[0]));
    start(128);
    g.SALF = g.MSFF = 1;
    g.R = 2;
    CODE(OPDC(01600));
    check("64R+7 outside core", stops(11));
    CODE(OPDC(01400 | 9));
    check("pattern 110 needs no base", go(1) == 0 && g.a_full == 1);
    start(128);
    g.SALF = 1;
    g.F = 32;
    CODE(OPDC(01000));
    set_a(3);
    set_b(77);
    check("a pushed word shows to the same syllable", go(1) == 0 && both(77, 3));
}

static void data_calls(void)
{
    start(2048);
    core[64 + 20] = data(10, 1000) | ON(5) | ON(30);
    core[1009] = 5;
    CODE(OPDC(20));
    set_a(9);
    check("P6 index 9 of 10", go(1) == 0 && only_a(5));
    start(2048);
    core[64 + 20] = data(10, 1000);
    CODE(OPDC(20));
    set_a(10);
    check("P6 index 10 of 10", stops(15));
    set_a(MINUS(1));
    check("index below 0", stops(15));
    set_a(ON(8) | 1);
    check("index with exponent", stops(20));
    set_a(ON(8) | MINUS(1));
    check("20 before 15", stops(20));
    set_a(ON(0) | UINT64_C(1) << 20);
    check("the whole index is compared", stops(15));
    set_a(ON(0) | MINUS(0));
    check("index -0, flag ignored", go(1) == 0 && only_a(0));
    start(2048);
    core[64 + 20] = data(10, 1000) | ON(3) | ON(5) | ON(30);
    CODE(DESC(20));
    set_a(9);
    check("DESC sets size 0, keeps the rest",
          go(1) == 0 && only_a(data(0, 1009) | ON(3) | ON(5) | ON(30)));
    start(2048);
    core[64 + 20] = data(1023, 0) | ON(7) | ON(18);
    CODE(DESC(20));
    set_a(1022);
    check("the whole size field is set 0", go(1) == 0 && only_a(data(0, 1022) | ON(7) | ON(18)));
    start(2048);
    core[64 + 20] = data(3, 32766);
    CODE(DESC(20), OPDC(20));
    set_a(2);
    check("index wraps; DESC does not test the core", go(1) == 0 && only_a(data(0, 0)));
    g.a_full = g.A = 0;
    set_b(1);
    check("OPDC does", stops(11));
    start(2048);
    core[64 + 20] = data(0, 1000);
    core[1000] = 4;
    CODE(OPDC(20), DESC(20));
    set_a(3);
    check("size 0 leaves B", go(1) == 0 && both(4, 3));
    check("DESC of size 0", go(1) == 0 && both(data(0, 1000), 4));
    core[64 + 20] &= ~ON(2);
    g.L = 0;
    check("data absent", stops(13));
    core[64 + 20] = data(2, 1000);
    core[1000] = ON(0);
    set_a(0);
    check("flag of the word called", stops(14));
    g = (struct second_registers){.R = 1, .S = 0};
    core[64 + 20] = data(2, 1000);
    check("B full pops: 11 first", stops(11));
    g.S = 20;
    core[20] = 1;
    check("the index may be popped", go(1) == 0 && only_a(0) && g.S == 19);
}

static void other_calls(void)
{
    start(128);
    CODE(DESC(9), OPDC(9));
    core[73] = 5;
    check("P7 DESC of an operand at 73", go(1) == 0 && only_a(UINT64_C(05000000000000111)));
    core[73] = ON(0) | ON(1) | 5;
    check("OPDC of a control word, bit 2 not looked at", go(1) == 0 && g.A == core[73]);
    g.L = 0;
    check("DESC of a control word", go(1) == 0 && g.A == UINT64_C(05000000000000111));
}

static void entries(void)
{
    start(2048);
    core[64 + 20] = program(321, 1000);
    g.F = 5;
    CODE(NOP, OPDC(20));
    set_a(3);
    set_b(4);
    check("enter without argument", go(2) == 0 && none() && g.C == 1000 && g.L == 0);
    check("entry: B, B, MSCW, RCW", g.S == 35 && core[32] == 4 && core[33] == 3);
    check("entry's MSCW", core[34] == (ON(0) | ON(1) | ON(14) | UINT64_C(5) << 15));
    check("entry's RCW", core[35] == (ON(0) | ON(1) | ON(10) | UINT64_C(34) << 15));
    check("entry: F and flags", g.F == 321 && g.SALF == 1 && g.MSFF == 0);
    start(2048);
    core[64 + 20] = argument(321, 1000);
    g.F = 5;
    g.MSFF = 1;
    CODE_AT(7, NOP, NOP, NOP, DESC(20));
    g.C = 7;
    g.L = 3;
    check("enter with argument", go(1) == 0 && g.S == 32 && g.F == 32 && g.C == 1000);
    check("its RCW", core[32] == (ON(0) | ON(1) | ON(2) | UINT64_C(5) << 15 | 8));
    check("its flags", g.SALF == 1 && g.MSFF == 0);
    start(2048);
    core[64 + 20] = argument(321, 1000);
    CODE(OPDC(20), OPDC(21), OPDC(22));
    core[64 + 21] = program(0, 0) & ~ON(2);
    core[64 + 22] = argument(0, 0) | ON(4);
    check("argument with MSFF off stays in A", go(1) == 0 && only_a(core[64 + 20]));
    check("program absent", stops(13));
    g.L = 2;
    check("mode on, before the argument", stops(19));
    core[64 + 22] &= ~ON(2);
    check("13 before 19", stops(13));
    start(128);
    core[64 + 20] = program(0, 0);
    CODE(OPDC(20));
    g.S = 62;
    check("slip: no pushed word is left behind", stops(12));
    g.S = 60;
    set_a(1);
    set_b(2);
    check("slip: nor after four pushes", stops(12));
    g.S = 59;
    check("room for four", go(1) == 0 && g.S == 63);
    start(128);
    g.F = 32767;
    g.R = 511;
    g.S = 0;
    g.SALF = 1;
    core[1] = program(0, 0);
    CODE(OPDC(01400 | 1));
    check("entry's MSCW holds SALF, all of R and F",
          go(1) == 0 && core[1] == (ON(0) | ON(1) | UINT64_C(511) << 33 | ON(17) |
                                    UINT64_C(32767) << 15));
}

static void stores(void)
{
    start(2048);
    CODE(LOD, LOD, LOD);
    core[64 + 9] = ON(0) | 5;
    set_a(ON(1) | ON(2) | ON(37) | 9);
    check("LOD looks at ten bits only", go(1) == 0 && only_a(ON(0) | 5));
    check("LOD absent", stops(13));
    set_a(data(0, 2048));
    check("LOD outside core", stops(11));
    set_a(2048);
    g.R = 31;
    check("LOD of a low k", go(1) == 0 && only_a(0));
    start(2048);
    CODE(STD, SND, STD);
    set_a(9);
    set_b(ON(0) | 5);
    check("STD", go(1) == 0 && none() && core[73] == (ON(0) | 5));
    set_a(data(0, 500));
    set_b(6);
    check("SND keeps B", go(1) == 0 && only_b(6) && core[500] == 6);
    set_a(ON(0) | ON(1) | 500);
    check("STD at a control word, bit 2 off", stops(13));
    set_a(ON(0) | ON(1) | ON(2) | 501);
    check("STD at a control word, bit 2 on", go(1) == 0 && none() && core[501] == 6);
    start(2048);
    g.SALF = 1;
    g.F = 600;
    CODE(NOP, NOP, NOP, SND);
    g.L = 3;
    set_a(01400 | 100);
    set_b(8);
    check("SND by pattern 110", go(1) == 0 && core[100] == 8);
    start(2048);
    g.SALF = 1;
    g.F = 600;
    CODE(SND);
    set_a(01600 | 100);
    set_b(8);
    check("SND by pattern 111", go(1) == 0 && core[500] == 8);
    start(128);
    CODE(INX, INX);
    set_a(data(5, 32767) | ON(32));
    set_b(ON(0) | ON(32) | 2);
    check("INX wraps and keeps the rest", go(1) == 0 && only_a(data(5, 1) | ON(32)));
    set_a(3);
    set_b(4);
    check("INX looks at no kind", go(1) == 0 && only_a(7));
}

static bool lands(uint64_t syllable)
{
    return 4 * g.C + g.L == syllable;
}

static void branches(void)
{
    start(128);
    CODE(BFC, NOP, NOP);
    set_a(5);
    set_b(1);
    check("P10 BFC over 1 falls through", go(1) == 0 && none() && lands(1));
    g.L = 0;
    set_a(5);
    set_b(2);
    check("P10 BFC over 2 branches, from the next one", go(1) == 0 && none() && lands(6));
    start(128);
    CODE(NOP, BBC);
    g.L = 1;
    set_a(2);
    set_b(ON(0));
    check("BBC back", go(1) == 0 && none() && lands(0));
    g.L = 1;
    set_a(3);
    set_b(0);
    check("before syllable 0", stops(11));
    set_b(3);
    check("an untaken branch does not look at A", go(1) == 0 && none() && lands(2));
    start(128);
    CODE(BBW, BFW);
    set_a(ON(1) | ON(2) | ON(35) | 1);
    set_b(1);
    check("BBW to itself, low 12 bits only", go(1) == 0 && only_b(1) && lands(0));
    g.L = 1;
    set_a(07777);
    check("BFW past the core", go(1) == 0 && lands(2 + 4095));
    check("fetch past the core", stops(11));
    g.C = 0;
    g.L = 0;
    set_a(ON(0) | ON(1) | 20);
    check("branch absent", stops(13));
    set_a(data(3, 20));
    check("branch to a word", go(1) == 0 && lands(80));
    start(CORE_ROOM);
    CODE_AT(32767, NOP, NOP, BFW, BFW);
    g.C = 32767;
    g.L = 2;
    set_a(1);
    check("after 131,071", stops(11));
    set_a(0);
    check("to 131,071", go(1) == 0 && lands(131071));
    set_a(4);
    check("the next one after 131,071 is 0", go(1) == 0 && lands(4));
    CODE_AT(32767, NOP, NOP, BFW, BBW);
    g.C = 32767;
    g.L = 3;
    set_a(1);
    check("back from 131,071", stops(11));
}

static void mark_stack(void)
{
    start(128);
    CODE(MKS);
    check("P8 MKS", go(1) == 0 && core[32] == UINT64_C(06000100000000000));
    check("MKS: S, F, MSFF", g.S == 32 && g.F == 32 && g.MSFF == 1 && core[71] == 0);
    start(128);
    CODE(MKS, MKS);
    g.SALF = 1;
    g.F = 3;
    set_a(5);
    set_b(6);
    uint64_t mark = ON(0) | ON(1) | ON(14) | ON(17) | UINT64_C(3) << 15;
    check("MKS pushes B, then A", go(1) == 0 && none() && core[32] == 6 && core[33] == 5);
    check("MKS writes 64R+7", core[34] == mark && core[71] == mark && g.F == 34);
    check("MKS with MSFF on does not", go(1) == 0 && core[71] == mark && g.S == 35);
    check("nested MSCW", core[35] == (ON(0) | ON(1) | ON(14) | ON(16) | ON(17) |
                                      UINT64_C(34) << 15));
    start(128);
    CODE(MKS);
    g.SALF = 1;
    g.R = 2;
    check("MKS, 64R+7 outside core", stops(11));
    g.S = 127;
    check("12 of the push comes first", stops(12));
}

static void exits(void)
{
    start(2048);
    CODE(XIT, XIT);
    set_a(5);
    check("XIT with SALF off does nothing", go(1) == 0 && only_a(5) && g.L == 1);
    set_b(6);
    g.SALF = 1;
    g.F = 50;
    core[50] = ON(0) | ON(1) | ON(11) | ON(10) | UINT64_C(40) << 15 | 700;
    core[40] = ON(0) | ON(1) | ON(6) | ON(17) | UINT64_C(33) << 15;
    check("XIT", go(1) == 0 && none() && g.C == 700 && g.L == 3 && g.S == 39);
    check("XIT: R, flags, F", g.R == 256 && g.SALF == 1 && g.MSFF == 0 && g.F == 33);
    start(2048);
    CODE(XIT);
    g.SALF = 1;
    g.F = 50;
    core[50] = UINT64_C(40) << 15;
    core[40] = ON(0);
    check("first word unflagged", stops(14));
    core[50] |= ON(0);
    core[40] = 0;
    check("second word unflagged", stops(14));
    core[50] = ON(0);
    check("second word at 0, its flag off", stops(11));
    core[50] = ON(0) | UINT64_C(2048) << 15;
    check("second word outside core", stops(11));
    g.F = 2048;
    check("first word outside core", stops(11));
    g.F = 1;
    core[1] = ON(0) | UINT64_C(1) << 15 | 5;
    check("a word may serve twice", go(1) == 0 && g.S == 0 && g.F == 1 && g.C == 5);
    check("XIT takes SALF from the second word", g.SALF == 0 && g.R == 0);
}

/* XIT through words 50 and 40, new R=2, F=33, both flags on. */
static void chain(size_t words)
{
    start(words);
    CODE(XIT);
    g.SALF = 1;
    g.F = 50;
    core[50] = ON(0) | UINT64_C(40) << 15;
    core[40] = ON(0) | ON(13) | ON(16) | ON(17) | UINT64_C(33) << 15;
}

static void exit_chains(void)
{
    chain(2048);
    core[33] = ON(16) | UINT64_C(20) << 15;
    core[20] = ON(16);
    core[0] &= ~ON(16);
    check("XIT follows F fields to address 0", go(1) == 0 && core[128 + 7] == core[0]);
    check("F does not move", g.F == 33 && g.MSFF == 1 && g.SALF == 1);
    chain(2048);
    core[33] = 5;
    check("a chain of one word", go(1) == 0 && core[128 + 7] == 5);
    chain(2048);
    core[33] = ON(16) | UINT64_C(33) << 15;
    check("a ring of marks", stops(11));
    chain(2048);
    core[33] = ON(16) | UINT64_C(2048) << 15;
    check("a chain out of core", stops(11));
    chain(130);
    check("XIT, 64R+7 outside core", stops(11));
}

/* All words but the MSCW at 40, in rising order, the RCW at 50 last. */
static void longest_chain(void)
{
    start(CORE_ROOM);
    uint64_t last = 0;
    for (uint64_t i = 1; i < CORE_ROOM; i++) {
        if (i == 40 || i == 50)
            continue;
        core[last] = ON(16) | i << 15;
        last = i;
    }
    core[last] = ON(16) | UINT64_C(50) << 15;
    core[50] = ON(0) | UINT64_C(40) << 15;
    core[40] = ON(0) | ON(16) | ON(17);
    CODE(XIT);
    g.SALF = 1;
    g.F = 50;
    check("the longest chain", go(1) == 0 && g.R == 0 && core[7] == core[50]);
}

static void communicate(void)
{
    start(128);
    CODE(COM);
    set_a(ON(0) | 5);
    set_b(6);
    check("COM", go(1) == 17 && only_b(6) && core[73] == (ON(0) | 5) && g.L == 1);
    start(73);
    CODE(COM);
    set_a(1);
    check("COM, 64R+9 outside core", stops(11));
    g.a_full = g.A = 0;
    core[31] = 4;
    length = 74;
    check("COM pops", go(1) == 17 && none() && g.S == 30 && core[73] == 4);
}

void test_calls(void)
{
    patterns();
    address_stops();
    data_calls();
    other_calls();
    entries();
    stores();
    branches();
    mark_stack();
    exits();
    exit_chains();
    longest_chain();
    communicate();
}
