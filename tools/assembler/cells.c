/* The lines that say what is in core: its length, the areas, cells, arrays and raw words. */
#include "assembler.h"

#include <stddef.h>
#include <string.h>

struct segment segment;

static struct cell *open_array; /* whose values a line of '=' goes on with */

void give(unsigned line, unsigned address, uint64_t word)
{
    if (segment.core == 0)
        fail(line, "the 'core' line must come before this one");
    if (address >= segment.core)
        fail(line, "word %u is not within core", address);
    if (segment.raw[address])
        return;
    if (segment.given[address] != 0)
        fail(line, "word %u has its value from line %u already", address, segment.given[address]);
    segment.given[address] = line;
    segment.word[address] = word;
}

static void parse_core(void)
{
    if (segment.core != 0)
        fail(line_now(), "there is a 'core' line already");
    segment.core = take_number("the length of core", 1, MOST_CORE);
}

static struct area *once(struct area *area)
{
    if (area->line != 0)
        fail(line_now(), "line %u says this already", area->line);
    area->line = line_now();
    return area;
}

static void parse_code_area(void)
{
    once(&segment.code)->first = take_number("the first code word", 0, MOST_CORE - 1);
}

static void parse_stack(void)
{
    once(&segment.stack)->first = take_number("the starting S", 0, MOST_CORE - 1);
    segment.stack.count = take_number("the room of the stack", 0, 1023);
}

static void parse_table(void)
{
    once(&segment.table)->first = take_number("R", 0, 511);
    segment.table.count = take_number("the length of the table", 64, MOST_CELLS);
}

struct cell *cell_named(const char *name)
{
    for (unsigned i = 0; i < MOST_CELLS; i++)
        if (segment.cell[i].name != NULL && strcmp(segment.cell[i].name, name) == 0)
            return &segment.cell[i];
    return NULL;
}

/* A cell's number and, if there is one, its name. */
static struct cell *take_cell(enum kind kind)
{
    unsigned number = take_number("the number of a cell", 0, MOST_CELLS - 1);
    struct cell *cell = &segment.cell[number];
    if (cell->kind != CLOSED)
        fail(line_now(), "cell %u stands in line %u already", number, cell->line);
    *cell = (struct cell){.kind = kind, .line = line_now()};
    if (look() == NULL || look_is_number() || look_is("="))
        return cell;
    const char *name = take("a name");
    check_name(name);
    const struct cell *other = cell_named(name);
    if (other != NULL)
        fail(line_now(), "the name '%s' stands in line %u already", name, other->line);
    cell->name = name;
    return cell;
}

static void give_cell(const struct cell *cell, uint64_t word)
{
    if (segment.table.line == 0)
        fail(line_now(), "the 'table' line must come before this one");
    give(line_now(), 64 * segment.table.first + (unsigned)(cell - segment.cell), word);
}

static void parse_number(void)
{
    const struct cell *cell = take_cell(NUMBER_CELL);
    uint64_t value = 0;
    if (look_is("=")) {
        take("=");
        value = take_operand();
    }
    give_cell(cell, value);
}

/* '=' and values, on the line of an array or on lines of their own below it. */
static void parse_values(void)
{
    struct cell *array = open_array;
    take("=");
    if (array == NULL)
        fail(line_now(), "these values stand below no array");
    while (look() != NULL) {
        if (array->filled == array->size)
            fail(line_now(), "there are more values than the %u words of the array", array->size);
        give(line_now(), array->address + array->filled, take_operand());
        array->filled++;
    }
}

static void parse_array(void)
{
    struct cell *array = take_cell(ARRAY_CELL);
    array->address = take_number("the address of an array", 0, MOST_CORE - 1);
    array->size = take_number("the size of an array", 0, 1023);
    /* a present data descriptor: bits 0 and 2 on, 8-17 size, 33-47 address */
    give_cell(array, UINT64_C(5) << 45 | (uint64_t)array->size << 30 | array->address);
    if (array->address + array->size > segment.core)
        fail(line_now(), "the array is not within core");
    open_array = array;
    if (look_is("="))
        parse_values();
}

static void parse_word(void)
{
    unsigned address = take_number("the address of a word", 0, MOST_CORE - 1);
    if (segment.raw[address])
        fail(line_now(), "word %u stands in line %u already", address, segment.given[address]);
    segment.given[address] = 0;
    give(line_now(), address, take_word());
    segment.raw[address] = true;
}

bool parse_part(void)
{
    static const struct {
        const char *word;
        void (*parse)(void);
    } parts[] = {
        {"core", parse_core},     {"code", parse_code_area}, {"stack", parse_stack}, {"table", parse_table},
        {"number", parse_number}, {"array", parse_array},    {"word", parse_word},
    };
    if (look_is("=")) {
        parse_values();
        return true;
    }
    open_array = NULL;
    for (size_t i = 0; i < sizeof parts / sizeof *parts; i++)
        if (look_is(parts[i].word)) {
            take(parts[i].word);
            parts[i].parse();
            return true;
        }
    return false;
}
