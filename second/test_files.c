/* Core files, the hand-out and runone; written from paper 01 alone. */
#include "selftest.h"

#include <string.h>

static void reading(void)
{
    static uint8_t bytes[6 * 32769];
    uint64_t words[2] = {7, 7};
    const uint8_t two[12] = {0x80, 1, 2, 3, 4, 5, 0xFF, 0xFF, 0xFF, 0xFF, 0xFF, 0xFE};
    check("read", second_read_core_file(two, 12, words, 2) == 0 &&
                      words[0] == UINT64_C(0x800102030405) &&
                      words[1] == UINT64_C(0xFFFFFFFFFFFE));
    words[0] = words[1] = 7;
    check("read: 4", second_read_core_file(two, 11, words, 2) == 4 && words[0] == 7);
    check("read: 4 before 1", second_read_core_file(bytes, 6 * 32768 + 1, words, 2) == 4);
    check("read: no words", second_read_core_file(two, 0, words, 0) == 1);
    check("read: a core too long",
          second_read_core_file(two, 6, words, 2) == 1 && words[0] == 7);
    check("read: a core too short",
          second_read_core_file(two, 12, words, 1) == 1 && words[0] == 7);
    check("read: too many words",
          second_read_core_file(bytes, 6 * 32769, core, 32769) == 1);
    check("read: 32,768 words", second_read_core_file(bytes, 6 * 32768, core, 32768) == 0);
}

static void writing(void)
{
    uint8_t room[13];
    uint64_t words[2] = {UINT64_C(0x800102030405), 0xFE};
    const uint8_t wanted[12] = {0x80, 1, 2, 3, 4, 5, 0, 0, 0, 0, 0, 0xFE};
    memset(room, 9, sizeof room);
    check("write: too little room",
          second_write_core_file(words, 2, room, 11) == 4 && room[0] == 9);
    check("write: too much room",
          second_write_core_file(words, 2, room, 18) == 4 && room[0] == 9);
    check("write", second_write_core_file(words, 2, room, 12) == 0 &&
                       memcmp(room, wanted, 12) == 0 && room[12] == 9);
    check("write: no words", second_write_core_file(words, 0, room, 0) == 1);
    check("write: too many words", second_write_core_file(words, 32769, room, 11) == 1);
    words[1] = UINT64_C(1) << 48;
    check("write: 2 before 4", second_write_core_file(words, 2, room, 11) == 2);
}

static bool hands(uint64_t r, uint64_t cell, int number, size_t start_wanted, size_t count_wanted)
{
    size_t from = 99, count = 99;
    return second_hand_out(core, length, r, cell, &from, &count) == number &&
           from == start_wanted && count == count_wanted;
}

static void hand_out(void)
{
    start(2000);
    core[64 + 1023] = data(10, 1990);
    check("hand out to the last word", hands(1, 1023, 0, 1990, 10));
    core[64 + 1023] = data(11, 1990);
    check("hand out past the core", hands(1, 1023, 36, 0, 0));
    core[64] = data(0, 10);
    check("hand out of size 0", hands(1, 0, 36, 0, 0));
    core[64] = data(1, 10) & ~ON(2);
    check("hand out, absent", hands(1, 0, 36, 0, 0));
    core[64] = data(1, 10) | ON(1);
    check("hand out of a control word", hands(1, 0, 36, 0, 0));
    core[64] = program(3, 10);
    check("hand out of a program descriptor", hands(1, 0, 36, 0, 0));
    core[64] = 5;
    check("hand out of an operand", hands(1, 0, 36, 0, 0));
    core[64] = data(1023, 0) | ON(3);
    check("hand out of 1,023 words", hands(1, 0, 0, 0, 1023));
    core[1023] = data(1, 0);
    check("the cell by the plain rule", hands(0, 1023, 0, 0, 1));
    check("cell outside core", hands(511, 0, 36, 0, 0));
    core[2000] = data(1, 0);
    check("cell just outside core", hands(31, 16, 36, 0, 0));
    check("R out of range", hands(512, 0, 3, 0, 0));
    check("cell out of range", hands(0, 1024, 3, 0, 0));
    check("a huge R", hands(UINT64_MAX, 0, 3, 0, 0));
    core[1999] = UINT64_C(1) << 48;
    check("hand out: 2 before 3", hands(512, 0, 2, 0, 0));
    length = 0;
    check("hand out: 1 before 2", hands(512, 0, 1, 0, 0));
    start(CORE_ROOM);
    core[64] = data(2, 32767);
    check("hand out does not wrap", hands(1, 0, 36, 0, 0));
}

static bool prints(const uint8_t *bytes, size_t n, const char *wanted)
{
    char line[SECOND_LINE_ROOM];
    second_runone(bytes, n, line);
    return strcmp(line, wanted) == 0;
}

static void runone(void)
{
    static uint8_t bytes[24582];
    const uint8_t sum[6] = {0x01, 0x40, 0x1C, 0x04, 0x12, 0x09};
    check("runone", prints(sum, 6, "17 4 1 0 31 0000000000000014\n"));
    check("runone: no bytes", prints(sum, 0, "1\n"));
    check("runone: 4", prints(sum, 5, "4\n"));
    check("runone: 24,577 bytes", prints(bytes, 24577, "4\n"));
    check("runone: 24,582 bytes", prints(bytes, 24582, "1\n"));
    check("runone: 4,096 words of LITC 0", prints(bytes, 24576, "12 34 8 2 63 0000000000000000\n"));
}

void test_files(void)
{
    reading();
    writing();
    hand_out();
    runone();
}
