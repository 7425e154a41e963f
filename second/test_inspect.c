/* The sheet and the inspector, written from paper 01 alone. */
#include "selftest.h"

static uint8_t sheet[6 * 1028];
static size_t records;

static void record_set(size_t i, unsigned kind, unsigned first, unsigned count)
{
    const unsigned bytes[6] = {kind, 0, first >> 8, first & 255, count >> 8, count & 255};
    for (size_t j = 0; j < 6; j++)
        sheet[6 * i + j] = (uint8_t)bytes[j];
}

static void record_add(unsigned kind, unsigned first, unsigned count)
{
    record_set(records++, kind, first, count);
}

/* Code of `words` words at 0, stack from S=31 with room d, table of 64 cells at R=1. */
static void lay(unsigned words, unsigned d)
{
    start(2048);
    records = 0;
    record_add(1, 0, words);
    record_add(2, 31, d);
    record_add(5, 1, 64);
}

static bool answers_length(size_t n, int number, uint64_t place)
{
    uint64_t found = 99;
    return second_inspect(core, length, sheet, n, &found) == number && found == place;
}

static bool answers(int number, uint64_t place)
{
    return answers_length(6 * records, number, place);
}

static void examples(void)
{
    lay(1, 2);
    CODE(LITC(5), LITC(7), ADD, COM);
    record_add(3, 9, 1);
    check("example, d=2", answers(0, 0));
    record_set(1, 2, 31, 1);
    check("example, d=1", answers(34, 1));
    lay(1, 2);
    CODE(LITC(5), LITC(7), ADD, COM);
    check("example, cell 9 closed", answers(34, 3));
}

static void first_checks(void)
{
    lay(1, 2);
    check("30: empty", answers_length(0, 30, 0));
    check("30: two records", answers_length(12, 30, 0));
    check("30: a byte over", answers_length(19, 30, 0));
    check("30: 1,028 records", answers_length(6 * 1028, 30, 0));
    core[2047] = UINT64_MAX;
    check("2 before 30", answers_length(0, 2, 0));
    length = 0;
    check("1 before 2", answers_length(0, 1, 0));
}

/* Whether the record makes the sheet bad at this place. */
static bool bad(size_t i, unsigned kind, unsigned first, unsigned count)
{
    lay(1, 2);
    record_add(3, 9, 2);
    record_add(4, 11, 2);
    record_set(i, kind, first, count);
    return answers(31, i);
}

static void bad_records(void)
{
    check("31: kind", bad(0, 2, 0, 1) && bad(1, 1, 0, 1) && bad(2, 3, 1, 64));
    check("31: code count", bad(0, 1, 0, 0) && bad(0, 1, 0, 1025) && !bad(0, 1, 0, 1024));
    check("31: code first", bad(0, 1, 32768, 1) && !bad(0, 1, 32767, 1));
    check("31: stack", bad(1, 2, 0, 1024) && bad(1, 2, 32768, 0) && !bad(1, 2, 32767, 1023));
    check("31: table", bad(2, 5, 512, 64) && bad(2, 5, 1, 63) && bad(2, 5, 1, 1025));
    check("31: table at its bounds", !bad(2, 5, 511, 1024));
    check("31: cell kind", bad(3, 5, 9, 2) && bad(3, 0, 9, 2) && bad(4, 1, 11, 2));
    check("31: cell count", bad(3, 3, 9, 0) && bad(4, 3, 11, 54) && !bad(4, 3, 11, 53));
    check("31: falling", bad(4, 4, 8, 1) && bad(4, 4, 3, 1));
    check("31: overlapping, the later is blamed", bad(4, 4, 10, 1) && bad(4, 3, 9, 1));
    check("31: touching is good", !bad(4, 3, 11, 1));
    lay(1, 2);
    sheet[7] = 1;
    check("31: byte 1", answers(31, 1));
    sheet[1] = 1;
    check("31: the first bad record", answers(31, 0));
}

/* The areas alone, in a core of this length. */
static bool areas(size_t words, unsigned code, unsigned n, unsigned s, unsigned d, unsigned r,
                  int number, uint64_t place)
{
    lay(1, 2);
    length = words;
    record_set(0, 1, code, n);
    record_set(1, 2, s, d);
    record_set(2, 5, r, 64);
    return answers(number, place);
}

static void bad_areas(void)
{
    /* The code is LITC 0 throughout and breaks the scan at syllable d, or at its end. */
    check("32: none", areas(128, 0, 8, 7, 56, 1, 34, 31));
    check("32: code outside", areas(128, 121, 8, 7, 5, 0, 32, 0));
    check("32: code at the end", areas(128, 120, 8, 70, 5, 0, 34, 5));
    check("32: stack outside", areas(128, 0, 8, 120, 8, 1, 32, 1));
    check("32: stack at the end", areas(128, 0, 8, 119, 8, 0, 32, 2));
    check("32: stack meets code", areas(128, 8, 8, 7, 1, 1, 32, 1));
    check("32: S itself is no stack word", areas(128, 0, 8, 7, 1, 1, 34, 1));
    check("32: no stack words meet nothing", areas(128, 0, 8, 3, 0, 1, 34, 0));
    check("32: S in core with d=0", areas(128, 0, 8, 128, 0, 1, 32, 1));
    check("32: S the last word with d=0", areas(128, 0, 8, 127, 0, 1, 34, 0));
    check("32: table outside", areas(127, 0, 8, 7, 1, 1, 32, 2));
    check("32: table meets code", areas(128, 60, 5, 7, 1, 1, 32, 2));
    check("32: table touches code", areas(128, 60, 4, 7, 1, 1, 34, 1));
    check("32: table meets stack", areas(128, 0, 8, 60, 4, 1, 32, 2));
    check("32: table touches stack", areas(128, 0, 8, 60, 3, 1, 34, 3));
    check("32: the lowest record", areas(10, 5, 8, 10, 1, 1, 32, 0));
}

/* An array cell 20 with this word. */
static bool array(uint64_t word, int number, uint64_t place)
{
    lay(1, 2);
    CODE(LITC(5), LITC(7), ADD, COM);
    record_add(3, 9, 1);
    record_add(4, 20, 1);
    record_add(4, 30, 1);
    core[94] = data(1, 1000);
    core[84] = word;
    core[1500] = ON(0);
    return answers(number, place);
}

static void bad_cells(void)
{
    check("33: a good array", array(data(500, 1000), 0, 0));
    check("33: a flag in the array", array(data(501, 1000), 33, 20));
    check("33: absent", array(data(5, 1000) & ~ON(2), 33, 20));
    check("33: an operand", array(5, 33, 20));
    check("33: a program descriptor", array(program(0, 1000), 33, 20));
    check("33: a control word", array(data(5, 1000) | ON(1), 33, 20));
    check("33: data with bit 3", array(data(5, 1000) | ON(3), 0, 0));
    check("33: size 0", array(data(0, 1000), 33, 20));
    check("33: outside core", array(data(2, 2047), 33, 20));
    check("33: at the end", array(data(1, 2047), 0, 0));
    check("33: meets code", array(data(1, 0), 33, 20));
    check("33: between code and stack", array(data(31, 1), 0, 0));
    check("33: meets stack", array(data(1, 33), 33, 20));
    check("33: meets table", array(data(1, 127), 33, 20));
    check("33: arrays may overlap", array(data(3, 999), 0, 0));
    lay(1, 2);
    CODE(LITC(5), LITC(7), ADD, COM);
    record_add(3, 8, 2);
    core[73] = ON(0);
    check("33: a flagged number cell", answers(33, 9));
    core[72] = ON(0);
    check("33: the lowest", answers(33, 8));
    lay(1, 2);
    core[73] = ON(0);
    check("33: closed cells are not looked at", answers(34, 2));
}

/* Number cells 8 to 11, array cells 20 and 21 over 1000 to 1009. */
static void lay_code(unsigned words, unsigned d)
{
    lay(words, d);
    record_add(3, 8, 4);
    record_add(4, 20, 2);
    core[84] = core[85] = data(10, 1000);
}

#define SCAN(words, d, number, place, ...)                                              \
    (lay_code((words), (d)), CODE(__VA_ARGS__), answers((number), (place)))

static void scan_calls(void)
{
    check("34: OPDC of a number cell", SCAN(1, 1, 0, 0, NOP, NOP, OPDC(8), COM));
    check("34: DESC of a number cell", SCAN(1, 1, 0, 0, NOP, DESC(8), LOD, COM));
    check("34: OPDC of a closed cell", SCAN(1, 1, 34, 2, NOP, NOP, OPDC(7), COM));
    check("34: OPDC past the table", SCAN(1, 1, 34, 2, NOP, NOP, OPDC(64), COM));
    check("34: OPDC of an array", SCAN(1, 1, 0, 0, NOP, LITC(3), OPDC(20), COM));
    check("34: OPDC of an array over a number", SCAN(1, 1, 0, 0, NOP, OPDC(8), OPDC(20), COM));
    check("34: OPDC of an array over nothing", SCAN(1, 1, 34, 2, NOP, NOP, OPDC(20), COM));
    check("34: OPDC of an array over a place", SCAN(1, 1, 34, 2, NOP, DESC(8), OPDC(20), COM));
    check("34: DESC of an array", SCAN(1, 1, 0, 0, LITC(3), DESC(21), LOD, COM));
    check("34: COM on a place", SCAN(1, 1, 34, 3, NOP, NOP, DESC(8), COM));
}

static void scan_words(void)
{
    check("34: two over a place", SCAN(1, 2, 34, 2, LITC(1), DESC(8), ADD, COM));
    check("34: two below a place", SCAN(1, 2, 34, 2, DESC(8), LITC(1), EQL, COM));
    check("34: two over one", SCAN(1, 2, 34, 2, NOP, LITC(1), LND, COM));
    check("34: LNG takes one", SCAN(1, 1, 0, 0, NOP, LITC(1), LNG, COM));
    check("34: CHS of a place", SCAN(1, 1, 34, 2, NOP, DESC(8), CHS, COM));
    check("34: MOP of nothing", SCAN(1, 1, 34, 0, MOP, LITC(1), NOP, COM));
    check("34: MDS", SCAN(1, 1, 34, 1, LITC(1), MDS, NOP, COM));
    check("34: INX", SCAN(1, 2, 34, 2, LITC(1), LITC(1), INX, COM));
    check("34: MKS, XIT", SCAN(1, 2, 34, 0, MKS, LITC(1), NOP, COM) &&
                              SCAN(1, 2, 34, 0, XIT, LITC(1), NOP, COM));
    check("34: not built", SCAN(1, 2, 34, 0, 00051, LITC(1), NOP, COM));
    check("34: TOP keeps its word", SCAN(1, 2, 0, 0, LITC(1), TOP, ADD, COM));
    check("34: TOP needs room", SCAN(1, 1, 34, 1, LITC(1), TOP, ADD, COM));
    check("34: TOP of a place", SCAN(1, 2, 34, 1, DESC(8), TOP, DEL, COM));
    check("34: XCH of a place", SCAN(2, 2, 0, 0, LITC(1), DESC(8), XCH, XCH, STD, NOP,
                                     LITC(1), COM));
    check("34: XCH of one", SCAN(1, 2, 34, 2, NOP, LITC(1), XCH, COM));
    check("34: DUP of a place", SCAN(2, 2, 0, 0, DESC(8), DUP, LOD, XCH, STD, NOP, LITC(1), COM));
    check("34: DUP needs room", SCAN(1, 1, 34, 1, LITC(1), DUP, DEL, COM));
    check("34: DUP of nothing", SCAN(1, 1, 34, 0, DUP, DEL, LITC(1), COM));
    check("34: DEL of a place", SCAN(1, 1, 0, 0, DESC(8), DEL, LITC(1), COM));
    check("34: DEL of nothing", SCAN(1, 1, 34, 0, DEL, DEL, LITC(1), COM));
}

static void scan_stores(void)
{
    check("34: LOD at a literal", SCAN(1, 1, 0, 0, NOP, LITC(8), LOD, COM));
    check("34: LOD at a closed cell", SCAN(1, 1, 34, 2, NOP, LITC(7), LOD, COM));
    check("34: LOD at an array cell", SCAN(1, 1, 34, 2, NOP, LITC(20), LOD, COM));
    check("34: LOD at a number", SCAN(1, 1, 34, 2, NOP, OPDC(8), LOD, COM));
    check("34: STD", SCAN(2, 2, 0, 0, LITC(1), LITC(8), STD, NOP, NOP, NOP, LITC(1), COM));
    check("34: STD of a place", SCAN(1, 2, 34, 2, DESC(8), LITC(8), STD, COM));
    check("34: STD of nothing", SCAN(1, 2, 34, 2, NOP, LITC(8), STD, COM));
    check("34: STD at a sum", SCAN(2, 3, 34, 4, LITC(1), LITC(4), LITC(4), ADD, STD, NOP,
                                   LITC(1), COM));
    check("34: SND keeps a literal", SCAN(2, 2, 0, 0, LITC(9), LITC(8), SND, LOD, COM, NOP,
                                          LITC(1), COM));
    check("34: XCH keeps a literal", SCAN(2, 2, 0, 0, LITC(8), LITC(1), XCH, STD, NOP, NOP,
                                          LITC(1), COM));
}

static void scan_ends(void)
{
    check("34: COM over two", SCAN(1, 2, 34, 3, NOP, LITC(1), LITC(1), COM));
    check("34: COM over nothing", SCAN(1, 2, 34, 0, COM, NOP, LITC(1), COM));
    check("34: the last is NOP", SCAN(1, 2, 34, 3, LITC(1), COM, NOP, NOP));
    check("34: the last is BFC", SCAN(1, 2, 34, 3, NOP, LITC(0), LITC(1), BFC));
    check("34: branch on a number", SCAN(1, 2, 34, 3, NOP, NOP, OPDC(8), BBW));
    check("34: branch over two", SCAN(1, 2, 34, 3, NOP, LITC(1), LITC(4), BBW));
    check("34: condition a place", SCAN(2, 2, 34, 2, DESC(8), LITC(0), BFC, NOP, NOP, NOP,
                                        LITC(8), BBW));
    check("34: condition missing", SCAN(1, 2, 34, 1, LITC(0), BFC, LITC(4), BBW));
    check("34: code after COM is scanned", SCAN(2, 2, 34, 2, LITC(1), COM, ADD, NOP, NOP, NOP,
                                                LITC(1), COM));
    check("34 wins over a lower 35", SCAN(2, 2, 34, 6, LITC(100), BFW, NOP, NOP, NOP, NOP,
                                          ADD, COM));
    check("34: a word after the code is not scanned",
          SCAN(1, 1, 0, 0, NOP, NOP, LITC(4), BBW, XIT, XIT, XIT, XIT));
    check("34: d=0", SCAN(1, 0, 34, 1, NOP, LITC(1), NOP, COM));
}

static void targets(void)
{
    check("35: BBW to the first", SCAN(1, 1, 0, 0, NOP, NOP, LITC(4), BBW));
    check("35: BBW before the code", SCAN(1, 1, 35, 3, NOP, NOP, LITC(5), BBW));
    check("35: BBW to a shape not empty", SCAN(1, 1, 35, 3, NOP, NOP, LITC(1), BBW));
    check("35: BBW to its literal", SCAN(1, 1, 0, 0, NOP, NOP, LITC(2), BBW));
    check("35: BFW to the last but one", SCAN(1, 1, 0, 0, LITC(0), BFW, LITC(4), BBW));
    check("35: BFW to a shape not empty", SCAN(1, 1, 35, 1, LITC(1), BFW, LITC(4), BBW));
    check("35: BFW past the code", SCAN(1, 1, 35, 1, LITC(2), BFW, LITC(4), BBW));
    check("35: the lowest", SCAN(1, 1, 35, 1, LITC(2), BFW, LITC(9), BBW));
    check("35: BFC and BBC", SCAN(2, 2, 0, 0, LITC(1), LITC(3), BFC, LITC(1), LITC(6), BBC,
                                  LITC(2), BBW));
    check("35: BBC's target", SCAN(2, 2, 35, 5, LITC(1), LITC(3), BFC, LITC(1), LITC(4), BBC,
                                   LITC(2), BBW));
    check("35: unreachable branches count", SCAN(2, 2, 35, 3, LITC(1), COM, LITC(9), BFW, NOP,
                                                 NOP, LITC(1), COM));
}

/* A forward branch in syllable 1 and a backward one in syllable 7 of code at 32000. */
static bool moved(unsigned forward, unsigned back, int number, uint64_t place)
{
    lay(2, 1);
    length = CORE_ROOM;
    record_set(0, 1, 32000, 2);
    CODE_AT(32000, LITC(forward), BFW, NOP, NOP, NOP, NOP, LITC(back), BBW);
    return answers(number, place);
}

static void moved_code(void)
{
    check("35: code elsewhere", moved(4, 8, 0, 0) && moved(0, 2, 0, 0));
    check("35: code elsewhere, past it", moved(6, 8, 35, 1) && moved(1023, 8, 35, 1));
    check("35: code elsewhere, before it", moved(4, 9, 35, 7) && moved(4, 1023, 35, 7));
    check("35: code elsewhere, a shape not empty", moved(5, 8, 35, 1) && moved(4, 7, 35, 7));
}

/* The code in the last word of the whole core. */
static bool last_word(unsigned literal, unsigned branch, int number, uint64_t place)
{
    lay(1, 1);
    length = CORE_ROOM;
    record_set(0, 1, 32767, 1);
    CODE_AT(32767, NOP, NOP, LITC(literal), branch);
    return answers(number, place);
}

static void last_syllable(void)
{
    check("35: BBW in syllable 131,071", last_word(4, BBW, 35, 3));
    check("35: BBW to 0 from 131,071", last_word(0, BBW, 35, 3));
    check("35: BFW in syllable 131,071", last_word(0, BFW, 35, 3));
    lay(1, 1);
    length = CORE_ROOM;
    record_set(0, 1, 0, 1);
    CODE(NOP, NOP, LITC(4), BBW);
    check("35: the first word of the whole core", answers(0, 0));
}

static void widest(void)
{
    start(CORE_ROOM);
    records = 0;
    record_add(1, 0, 1024);
    record_add(2, 2000, 1023);
    record_add(5, 511, 64);
    for (unsigned i = 0; i < 1024; i++)
        CODE_AT(i, NOP, NOP, NOP, NOP);
    CODE_AT(1023, NOP, NOP, LITC(1), BBW);
    check("4,096 syllables, the last to itself", answers(35, 4095));
    CODE_AT(1023, NOP, NOP, LITC(1023), BBW);
    check("4,096 syllables", answers(0, 0));
    for (unsigned i = 0; i < 1024; i++)
        CODE_AT(i, LITC(1), LITC(1), LITC(1), LITC(1));
    check("1,023 items and one more", answers(34, 1023));
    records = 0;
    record_add(1, 0, 1);
    record_add(2, 2000, 1);
    record_add(5, 100, 1024);
    for (unsigned i = 0; i < 1024; i++) {
        record_add(4, i, 1);
        core[6400 + i] = data(1023, 10000);
    }
    CODE(NOP, NOP, LITC(4), BBW);
    check("1,027 records of overlapping arrays", answers(0, 0));
    core[11022] = ON(0);
    check("their last word", answers(33, 0));
}

void test_inspect(void)
{
    examples();
    first_checks();
    bad_records();
    bad_areas();
    bad_cells();
    scan_calls();
    scan_words();
    scan_stores();
    scan_ends();
    targets();
    moved_code();
    last_syllable();
    widest();
}
