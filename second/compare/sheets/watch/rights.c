/* What the sheet says, word by word. */
#include "rights.h"

#include <string.h>

static struct {
    bool fetch, write, number;
} right[MOST];
static size_t length;
static struct record stack, table;

static void let_write(uint64_t first, uint64_t count, bool number)
{
    for (uint64_t i = first; i < first + count; i++) {
        right[i].write = true;
        right[i].number = number;
    }
}

/* Words S+1 to S+d, number cells, and the words of the arrays. */
void read_rights(const struct segment *seg)
{
    const struct record *code = &seg->record[0];
    stack = seg->record[1];
    table = seg->record[2];
    length = seg->st.length;
    memset(right, 0, sizeof *right * length);
    for (unsigned i = 0; i < code->count; i++)
        right[code->first + i].fetch = true;
    let_write(stack.first + 1, stack.count, false);
    for (unsigned cell = 0; cell < seg->table; cell++) {
        uint64_t at = 64 * table.first + cell, word = seg->st.core[at];
        if (seg->kind[cell] == NUMBER_CELL)
            let_write(at, 1, true);
        if (seg->kind[cell] == ARRAY_CELL)
            let_write(word & 077777, word >> 30 & 01777, true);
    }
}

bool may_fetch(uint64_t address) { return address < length && right[address].fetch; }
bool may_write(uint64_t address) { return right[address].write; }
bool is_number(uint64_t address) { return right[address].number; }

bool numbers_plain(const uint64_t *core)
{
    for (size_t i = 0; i < length; i++)
        if (right[i].number && (core[i] & ON(0)) != 0)
            return false;
    return true;
}

bool registers_kept(const struct second_registers *g)
{
    return g->R == table.first && g->F == 0 && g->SALF == 0 && g->MSFF == 0 && g->S >= stack.first &&
           g->S <= stack.first + stack.count;
}

bool may_answer(uint64_t number)
{
    return number == 0 || number == 15 || number == 17 || number == 20 || number == 21;
}
