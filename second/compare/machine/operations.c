/* Names and codes of the operators, and what a state would obey. */
#include "operations.h"
#include "../../codes.h"

static const struct {
    const char *name;
    unsigned code;
} operations[OPERATIONS] = {
    {"ADD", ADD}, {"SUB", SUB}, {"MUL", MUL}, {"IDV", IDV}, {"RDV", RDV}, {"GTR", GTR},
    {"GEQ", GEQ}, {"EQL", EQL}, {"LEQ", LEQ}, {"LSS", LSS}, {"NEQ", NEQ}, {"LND", LND},
    {"LOR", LOR}, {"LQV", LQV}, {"LNG", LNG}, {"MOP", MOP}, {"MDS", MDS}, {"SSP", SSP},
    {"SSN", SSN}, {"CHS", CHS}, {"TOP", TOP}, {"XCH", XCH}, {"DUP", DUP}, {"DEL", DEL},
    {"NOP", NOP}, {"LOD", LOD}, {"STD", STD}, {"SND", SND}, {"INX", INX}, {"BFW", BFW},
    {"BBW", BBW}, {"BFC", BFC}, {"BBC", BBC}, {"MKS", MKS}, {"XIT", XIT}, {"COM", COM},
    {"LITC", 0}, {"OPDC", 0}, {"DESC", 0}, {"others", 0}, {"(fetch)", 0}};

unsigned operator_code(unsigned operator) { return operations[operator].code; }

const char *operation_name(enum operation operation) { return operations[operation].name; }

unsigned syllable_at(const struct state *st)
{
    return (unsigned)(st->core[st->g.C] >> (36 - 12 * st->g.L) & 07777);
}

void put_syllable(struct state *st, uint64_t c, uint64_t l, unsigned syllable)
{
    uint64_t shift = 36 - 12 * l;
    st->core[c] = (st->core[c] & ~((uint64_t)07777 << shift)) | (uint64_t)syllable << shift;
}

/* "by its last two bits 00, 10, 11, 01" */
enum operation operation_of(const struct state *st)
{
    if (st->g.C >= st->length)
        return OP_FETCH;
    unsigned syllable = syllable_at(st);
    switch (syllable & 3) {
    case 0: return OP_LITC;
    case 2: return OP_OPDC;
    case 3: return OP_DESC;
    default:
        for (unsigned i = 0; i < OPERATORS; i++)
            if (operations[i].code == syllable)
                return (enum operation)i;
        return OP_OTHER;
    }
}
