/* Broken clauses of 32: code, stack and table outside core or meeting. */
#include "clauses.h"
#include "../../maker/chance.h"
#include "damage.h"

enum { TRIES = 40 };

/* Words from first up to end, end not among them. */
struct words {
    unsigned first, end;
};

static struct words code_of(const struct segment *seg)
{
    const struct record *r = &seg->record[0];
    return (struct words){r->first, r->first + r->count};
}

static struct words stack_of(const struct segment *seg)
{
    const struct record *r = &seg->record[1];
    return (struct words){r->first + 1, r->first + 1 + r->count};
}

static struct words table_of(const struct segment *seg)
{
    const struct record *r = &seg->record[2];
    return (struct words){64 * r->first, 64 * r->first + r->count};
}

static bool share(struct words x, struct words y)
{
    unsigned first = x.first > y.first ? x.first : y.first, end = x.end < y.end ? x.end : y.end;
    return first < end;
}

/* A first word for `count` words that share some with `other`, often only one. */
static unsigned onto(struct words other, unsigned count)
{
    unsigned lowest = other.first + 1 < count ? 0 : other.first + 1 - count;
    if (one_in(4))
        return lowest;
    return one_in(3) ? other.end - 1 : lowest + below(other.end - lowest);
}

/* A first word for `count` words that end past the core, often by one. */
static unsigned past(const struct segment *seg, unsigned count, unsigned most)
{
    unsigned length = (unsigned)seg->st.length, least = length + 1 < count ? 0 : length + 1 - count;
    if (least > most)
        return most;
    return one_in(2) ? least : least + below(most + 1 - least);
}

enum fault {
    CODE_OUTSIDE, STACK_OUTSIDE, NO_STACK_OUTSIDE, TABLE_OUTSIDE, CODE_AROUND, STACK_AROUND, TABLE_AROUND,
    STACK_ON_CODE, TABLE_ON_CODE, TABLE_ON_STACK, CODE_UNDER_TABLE, STACK_UNDER_TABLE, FAULTS
};

static const unsigned places[FAULTS] = {0, 1, 1, 2, 0, 1, 2, 1, 2, 2, 2, 2};

/* One try; the caller looks whether the clause is broken by it. */
static void change(struct segment *seg, enum fault fault)
{
    struct record *code = &seg->record[0], *stack = &seg->record[1], *table = &seg->record[2];
    switch (fault) {
    case CODE_OUTSIDE:
        if (one_in(2))
            code->count = 1 + below(1024);
        code->first = past(seg, code->count, 32767);
        break;
    case STACK_OUTSIDE:
        if (one_in(2))
            stack->count = 1 + below(1023);
        stack->first = past(seg, stack->count + 1, 32767);
        break;
    case NO_STACK_OUTSIDE:
        stack->count = 0;
        stack->first = past(seg, 1, 32767);
        break;
    case TABLE_OUTSIDE:
        if (one_in(2))
            table->count += below(1025 - table->count);
        table->first = (past(seg, table->count, 64 * 511) + 63) / 64;
        break;
    case CODE_AROUND:
        code->first = 32767 - below(3);
        code->count = 4 + below(20);
        break;
    case STACK_AROUND:
        stack->first = 32767 - below(3);
        stack->count = 3 + below(20);
        break;
    case TABLE_AROUND:
        table->first = 511;
        table->count += table->count == 64 ? 1 + below(60) : 0;
        break;
    case STACK_ON_CODE:
        if (stack->count == 0 || one_in(3))
            stack->count = 1 + below(20);
        stack->first = onto(code_of(seg), stack->count);
        stack->first -= stack->first != 0;
        break;
    case TABLE_ON_CODE: table->first = onto(code_of(seg), table->count) / 64; break;
    case TABLE_ON_STACK: table->first = onto(stack_of(seg), table->count) / 64; break;
    case CODE_UNDER_TABLE: code->first = onto(table_of(seg), code->count); break;
    case STACK_UNDER_TABLE:
        if (stack->count == 0)
            stack->count = 1 + below(20);
        stack->first = onto(table_of(seg), stack->count);
        stack->first -= stack->first != 0;
        break;
    case FAULTS: break;
    }
}

/* Whether just this is wrong with the three areas. */
static bool is_broken(const struct segment *seg, enum fault fault)
{
    struct words code = code_of(seg), stack = stack_of(seg), table = table_of(seg);
    bool outside[3] = {code.end > seg->st.length, stack.end > seg->st.length, table.end > seg->st.length};
    bool meets[3] = {share(stack, code), share(table, code), share(table, stack)};
    unsigned wrong = 0;
    for (unsigned i = 0; i < 3; i++)
        wrong += (outside[i] ? 1U : 0U) + (meets[i] ? 1U : 0U);
    /* A fault of the table shows only if nothing is wrong with the other two. */
    if (wrong != 1 && places[fault] == 2)
        return false;
    switch (fault) {
    case CODE_OUTSIDE: case CODE_AROUND: return outside[0];
    case STACK_OUTSIDE: case NO_STACK_OUTSIDE: case STACK_AROUND: return outside[1] && !meets[0];
    case TABLE_OUTSIDE: case TABLE_AROUND: return outside[2];
    case STACK_ON_CODE: return meets[0] && !outside[1];
    case TABLE_ON_CODE: case CODE_UNDER_TABLE: return meets[1];
    case TABLE_ON_STACK: case STACK_UNDER_TABLE: return meets[2];
    case FAULTS: break;
    }
    return false;
}

static bool spoil_areas(struct segment *seg, unsigned which, uint64_t *place)
{
    const struct record before[3] = {seg->record[0], seg->record[1], seg->record[2]};
    *place = places[which];
    for (unsigned tries = 0; tries < TRIES; tries++) {
        change(seg, (enum fault)which);
        if (is_broken(seg, (enum fault)which))
            return true;
        for (unsigned i = 0; i < 3; i++)
            seg->record[i] = before[i];
    }
    return false;
}

void list_area_clauses(void)
{
    static const char *const names[FAULTS] = {
        "code outside core", "stack outside core", "S outside core, d 0", "table outside core",
        "code past word 32,767", "stack past word 32,767", "table past word 32,767", "stack meets code",
        "table moved onto code", "table moved onto stack", "code moved under table",
        "stack moved under table"};
    for (unsigned i = 0; i < FAULTS; i++)
        add_clause(32, names[i], spoil_areas, i);
}
