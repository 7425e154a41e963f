/* The scan of the code (34, 35), written from paper 01 alone. */
#include "sheet.h"
#include "table.h"

/* "items are literal k, number, place"; a literal is its own k, NO_ITEM is too few. */
enum { NUMBER = 1024, PLACE = 1025, NO_ITEM = 1026 };
enum { CODE_SYLLABLES = 4 * CODE_LIMIT, NO_TARGET = CODE_SYLLABLES };

/* A syllable adds one item at most, before "more than d" (at most 1,023) is tested. */
enum { SHAPE_ROOM = 1024 };

struct scan {
    const struct sheet *sheet;
    uint64_t items;
    unsigned item[SHAPE_ROOM];
    bool empty_before[CODE_SYLLABLES]; /* the shape that meets each syllable */
    bool is_branch[CODE_SYLLABLES];
    uint64_t target[CODE_SYLLABLES]; /* counted from the first code syllable */
};

/* The item `down` below the top. */
static unsigned peek(const struct scan *s, uint64_t down)
{
    return down < s->items ? s->item[s->items - 1 - down] : NO_ITEM;
}

static bool is_literal(unsigned item) { return item < NUMBER; }
static bool is_word(unsigned item) { return item <= NUMBER; }

static bool is_cell(const struct scan *s, unsigned item, enum kind kind)
{
    return is_literal(item) && s->sheet->cell[item] == kind;
}

/* "at a place or a literal naming a number cell" */
static bool is_store_place(const struct scan *s, unsigned item)
{
    return item == PLACE || is_cell(s, item, NUMBER_CELL);
}

/* Takes items off and leaves one. */
static bool replace(struct scan *s, uint64_t taken, unsigned left)
{
    s->items -= taken;
    s->item[s->items++] = left;
    return true;
}

static bool drop(struct scan *s, uint64_t taken)
{
    s->items -= taken;
    return true;
}

/* "OPDC and DESC of a number cell, or of an array cell over a literal or number" */
static bool scan_call(struct scan *s, unsigned k, unsigned given)
{
    if (is_cell(s, k, NUMBER_CELL))
        return replace(s, 0, given);
    return is_cell(s, k, ARRAY_CELL) && is_word(peek(s, 0)) && replace(s, 1, given);
}

static bool scan_two(struct scan *s)
{
    return is_word(peek(s, 0)) && is_word(peek(s, 1)) && replace(s, 2, NUMBER);
}

static bool scan_one(struct scan *s)
{
    return is_word(peek(s, 0)) && replace(s, 1, NUMBER);
}

/* "TOP and SND keep the word they test or store" */
static bool scan_top(struct scan *s)
{
    return is_word(peek(s, 0)) && replace(s, 0, NUMBER);
}

/* "XCH, DUP, DEL on anything" */
static bool scan_exchange(struct scan *s)
{
    unsigned upper = peek(s, 0), lower = peek(s, 1);
    if (lower == NO_ITEM)
        return false;
    drop(s, 2);
    return replace(s, 0, upper) && replace(s, 0, lower);
}

static bool scan_duplicate(struct scan *s)
{
    return s->items != 0 && replace(s, 0, peek(s, 0));
}

static bool scan_delete(struct scan *s)
{
    return s->items != 0 && drop(s, 1);
}

static bool scan_load(struct scan *s)
{
    return is_store_place(s, peek(s, 0)) && replace(s, 1, NUMBER);
}

/* "the stored word a literal or number" */
static bool scan_store(struct scan *s, uint64_t taken)
{
    return is_store_place(s, peek(s, 0)) && is_word(peek(s, 1)) && drop(s, taken);
}

/* "target, counted as the machine counts it": from the next syllable, after 131,071 0. */
static uint64_t branch_target(const struct scan *s, uint64_t at, uint64_t by, bool forward)
{
    uint64_t first = 4 * s->sheet->code.first;
    uint64_t next = (first + at + 1) % SYLLABLE_LIMIT;
    if (forward ? next + by >= SYLLABLE_LIMIT : next < by)
        return NO_TARGET;
    uint64_t target = forward ? next + by : next - by;
    if (target < first || target - first >= 4 * s->sheet->code.count)
        return NO_TARGET;
    return target - first;
}

/* "a branch on a literal (condition literal or number) leaving an empty shape" */
static bool scan_branch(struct scan *s, uint64_t at, bool forward, bool conditional)
{
    uint64_t taken = conditional ? 2 : 1;
    if (s->items != taken || !is_literal(peek(s, 0)) || !is_word(peek(s, taken - 1)))
        return false;
    s->is_branch[at] = true;
    s->target[at] = branch_target(s, at, peek(s, 0), forward);
    return drop(s, taken);
}

/* "COM on one literal or number with cell 9 a number cell, leaving an empty shape" */
static bool scan_communicate(struct scan *s)
{
    return s->items == 1 && is_word(peek(s, 0)) && is_cell(s, 9, NUMBER_CELL) && drop(s, 1);
}

/* "A syllable may be ..." */
static bool scan_syllable(struct scan *s, uint64_t at, unsigned syllable)
{
    unsigned k = syllable >> 2;
    switch (second_table[syllable]) {
    case LITC: return replace(s, 0, k);
    case OPDC: return scan_call(s, k, NUMBER);
    case DESC: return scan_call(s, k, PLACE);
    case ADD: case SUB: case MUL: case IDV: case RDV:
    case GTR: case GEQ: case EQL: case LEQ: case LSS: case NEQ:
    case LND: case LOR: case LQV: return scan_two(s);
    case LNG: case MOP: case SSP: case SSN: case CHS: return scan_one(s);
    case TOP: return scan_top(s);
    case XCH: return scan_exchange(s);
    case DUP: return scan_duplicate(s);
    case DEL: return scan_delete(s);
    case NOP: return true;
    case LOD: return scan_load(s);
    case STD: return scan_store(s, 2);
    case SND: return scan_store(s, 1);
    case BFW: return scan_branch(s, at, true, false);
    case BBW: return scan_branch(s, at, false, false);
    case BFC: return scan_branch(s, at, true, true);
    case BBC: return scan_branch(s, at, false, true);
    case COM: return scan_communicate(s);
    default: return false;
    }
}

/* "The last syllable is COM, BFW or BBW." */
static bool may_be_last(unsigned syllable)
{
    uint8_t number = second_table[syllable];
    return number == COM || number == BFW || number == BBW;
}

/* "34, first syllable breaking the scan ... Too few items, or more than d, breaks." */
static int scan_all(struct scan *s, const uint64_t *core, uint64_t *place)
{
    uint64_t syllables = 4 * s->sheet->code.count;
    for (uint64_t at = 0; at < syllables; at++) {
        uint64_t word = core[s->sheet->code.first + at / 4];
        unsigned syllable = (unsigned)(word >> (36 - 12 * (at % 4)) & 07777);
        s->empty_before[at] = s->items == 0;
        if (!scan_syllable(s, at, syllable) || s->items > s->sheet->stack.count ||
            (at + 1 == syllables && !may_be_last(syllable))) {
            *place = at;
            return SECOND_BAD_SYLLABLE;
        }
    }
    return SECOND_WENT_ON;
}

/* "35, lowest branch whose target ... is outside the code or has a shape not empty." */
static int scan_targets(const struct scan *s, uint64_t *place)
{
    for (uint64_t at = 0; at < 4 * s->sheet->code.count; at++) {
        if (!s->is_branch[at])
            continue;
        if (s->target[at] == NO_TARGET || !s->empty_before[s->target[at]]) {
            *place = at;
            return SECOND_BAD_TARGET;
        }
    }
    return SECOND_WENT_ON;
}

int second_inspect_code(const uint64_t *core, const struct sheet *sheet, uint64_t *place)
{
    struct scan s = {.sheet = sheet, .items = 0};
    int number = scan_all(&s, core, place);
    return number != SECOND_WENT_ON ? number : scan_targets(&s, place);
}
