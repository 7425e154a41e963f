/* The bounds of the rules, each seen from its good side in a segment that passes. */
#include "edges.h"
#include "../../codes.h"

#include <stdio.h>

enum edge {
    CODE_AT_0, CODE_AT_END, CODE_AT_32767, ONE_WORD, MOST_WORDS, ROOM_LEAST, ROOM_1, ROOM_1023, STACK_AT_END,
    S_AT_0, R_0, R_511, TABLE_64, TABLE_1024, RECORDS_1027, NO_CELL_9, STACK_TOUCHES_CODE, OVERLAP,
    ARRAY_AT_END, ARRAY_AT_S, ARRAY_1023, FLAG_AFTER_ARRAY, FLAG_BEFORE_ARRAY,
    TO_FIRST, BY_NONE, BY_1000, LITERAL_CARRIED, EDGES
};
static const char *const names[EDGES] = {
    "code from word 0 on", "code up to the end of a short core", "code up to word 32,767", "code of one word",
    "code of 1,024 words", "d as deep as the code needs", "d 1", "d 1,023", "stack up to the end of core",
    "S 0", "R 0", "R 511", "table of 64 cells", "table of 1,024 cells", "1,027 records", "cell 9 closed",
    "stack right after code", "arrays that overlap", "an array up to the end of core",
    "an array with the word at S", "an array of 1,023 words", "a flag right after an array",
    "a flag right before an array", "a branch to the first syllable",
    "a branch by 0", "a branch by 1,000 or more", "a literal carried to its branch"};
static uint64_t seen[EDGES];

/* Whether one of the arrays, or one pair of them, shows it. */
static bool shown_by_array(const struct segment *seg, enum edge edge)
{
    uint64_t table = 64 * seg->record[2].first, s = seg->record[1].first, last = 0, end = 0;
    for (unsigned i = 0; i < seg->arrays.count; i++) {
        uint64_t word = seg->st.core[table + seg->arrays.cell[i]];
        uint64_t first = word & 077777, size = word >> 30 & 01777;
        if ((edge == ARRAY_AT_END && first + size == seg->st.length) ||
            (edge == ARRAY_AT_S && first <= s && s < first + size) || (edge == ARRAY_1023 && size == 1023) ||
            (edge == FLAG_AFTER_ARRAY && first + size < seg->st.length && seg->st.core[first + size] & ON(0)) ||
            (edge == FLAG_BEFORE_ARRAY && first != 0 && seg->st.core[first - 1] & ON(0)) ||
            (edge == OVERLAP && first < end && last < first + size))
            return true;
        last = first;
        end = first + size;
    }
    return false;
}

static bool shown_by_branch(const struct segment *seg, enum edge edge)
{
    const struct program *p = &seg->program;
    for (unsigned i = 0; i < p->branches; i++) {
        const struct branch *b = &p->branch[i];
        unsigned operator = p->syllable[b->at], distance = p->syllable[b->literal] >> 2;
        bool back = operator == BBW || operator == BBC;
        if ((edge == TO_FIRST && back && distance == b->at + 1) || (edge == BY_NONE && distance == 0) ||
            (edge == BY_1000 && distance >= 1000) || (edge == LITERAL_CARRIED && b->literal + 1 != b->at))
            return true;
    }
    return false;
}

static bool shown(const struct segment *seg, enum edge edge)
{
    const struct record *code = &seg->record[0], *stack = &seg->record[1], *table = &seg->record[2];
    size_t length = seg->st.length, code_end = code->first + code->count;
    switch (edge) {
    case CODE_AT_0: return code->first == 0;
    case CODE_AT_END: return code_end == length && length < MOST;
    case CODE_AT_32767: return code_end == MOST;
    case ONE_WORD: return code->count == 1;
    case MOST_WORDS: return code->count == 1024;
    case ROOM_LEAST: return stack->count == seg->program.deepest;
    case ROOM_1: return stack->count == 1;
    case ROOM_1023: return stack->count == 1023;
    case STACK_AT_END: return stack->first + stack->count + 1 == length;
    case S_AT_0: return stack->first == 0;
    case R_0: return table->first == 0;
    case R_511: return table->first == 511;
    case TABLE_64: return table->count == 64;
    case TABLE_1024: return table->count == 1024;
    case RECORDS_1027: return seg->records == 1027;
    case NO_CELL_9: return seg->kind[9] == CLOSED_CELL;
    case STACK_TOUCHES_CODE: return stack->first + 1 == code_end;
    case OVERLAP: case ARRAY_AT_END: case ARRAY_AT_S: case ARRAY_1023: case FLAG_AFTER_ARRAY:
    case FLAG_BEFORE_ARRAY: return shown_by_array(seg, edge);
    case TO_FIRST: case BY_NONE: case BY_1000: case LITERAL_CARRIED: return shown_by_branch(seg, edge);
    case EDGES: break;
    }
    return false;
}

void note_edges(const struct segment *seg)
{
    for (unsigned i = 0; i < EDGES; i++)
        seen[i] += shown(seg, (enum edge)i);
}

unsigned edges_all(void) { return EDGES; }

unsigned edges_missing(void)
{
    unsigned missing = 0;
    for (unsigned i = 0; i < EDGES; i++) {
        printf("0: %-69s%8llu\n", names[i], (unsigned long long)seen[i]);
        missing += seen[i] == 0;
    }
    return missing;
}
