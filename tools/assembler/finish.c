/* When all lines are read: whole words of code, names and labels looked up, the words given. */
#include "assembler.h"

#include <stddef.h>
#include <string.h>

/* Whole words: NOPs before the last instruction, since the last syllable must be COM, BFW or BBW. */
static void fill_up(void)
{
    unsigned more = (4 - segment.syllables % 4) % 4, last = segment.last;
    for (unsigned at = segment.syllables; at-- > last;)
        segment.syllable[at + more] = segment.syllable[at];
    for (unsigned i = 0; i < more; i++)
        segment.syllable[last + i] = (struct syllable){segment.syllable[last + more].line, NOP, NOTHING, NULL};
    segment.syllables += more;
    for (unsigned i = 0; i < segment.labels; i++)
        if (segment.label[i].at > last)
            segment.label[i].at += more;
}

static unsigned label_at(const struct syllable *s)
{
    for (unsigned i = 0; i < segment.labels; i++)
        if (strcmp(segment.label[i].name, s->name) == 0)
            return segment.label[i].at;
    fail(s->line, "no label is named '%s'", s->name);
}

/* A branch counts from the syllable after its operator. */
static unsigned branch_count(const struct syllable *s, unsigned at)
{
    unsigned next = at + 2, label = label_at(s);
    bool forward = s->wait == FORWARD_TO_LABEL;
    if (forward && label < next)
        fail(s->line, "'%s' lies back from this branch: write BBW or BBC", s->name);
    if (!forward && label > next)
        fail(s->line, "'%s' lies forward from this branch: write BFW or BFC", s->name);
    unsigned count = forward ? label - next : next - label;
    if (count > MOST_LITERAL)
        fail(s->line, "'%s' is %u syllables away, and a branch reaches %d", s->name, count, MOST_LITERAL);
    return count;
}

static unsigned cell_value(const struct syllable *s)
{
    const struct cell *cell = cell_named(s->name);
    if (cell == NULL)
        fail(s->line, "no cell is named '%s'", s->name);
    if (s->wait == CELL_OF_NAME)
        return (unsigned)(cell - segment.cell);
    if (cell->kind != ARRAY_CELL)
        fail(s->line, "'%s' is a number and has no size", s->name);
    return cell->size;
}

/* Four syllables a word, the first in the highest bits. */
static void give_code(void)
{
    const struct syllable *s = segment.syllable;
    for (unsigned i = 0; i < segment.syllables / 4; i++, s += 4)
        give(s->line, segment.code.first + i, (uint64_t)s[0].bits << 36 | (uint64_t)s[1].bits << 24 |
                                                  (uint64_t)s[2].bits << 12 | s[3].bits);
    segment.code.count = segment.syllables / 4;
}

void finish_code(void)
{
    if (segment.syllables == 0)
        fail(line_now(), "there is no code");
    fill_up();
    for (unsigned at = 0; at < segment.syllables; at++) {
        struct syllable *s = &segment.syllable[at];
        if (s->wait == CELL_OF_NAME || s->wait == SIZE_OF_NAME)
            s->bits |= cell_value(s) << 2;
        else if (s->wait != NOTHING)
            s->bits |= branch_count(s, at) << 2;
    }
    give_code();
}
