/* The lines of code: labels, and any number of instructions after each other. */
#include "assembler.h"

#include <stddef.h>
#include <string.h>

static void add(unsigned bits, enum wait wait, const char *name)
{
    if (segment.syllables == MOST_SYLLABLES)
        fail(line_now(), "the code is over 1024 words");
    segment.syllable[segment.syllables++] = (struct syllable){line_now(), bits, wait, name};
}

static void add_number(const char *what, unsigned kind)
{
    add(take_number(what, 0, MOST_LITERAL) << 2 | kind, NOTHING, NULL);
}

/* LITC NUMBER, LITC cell NAME, LITC size NAME */
static void parse_literal(void)
{
    if (look_is("cell")) {
        take("cell");
        add(LITC, CELL_OF_NAME, take("the name of a cell"));
    } else if (look_is("size")) {
        take("size");
        add(LITC, SIZE_OF_NAME, take("the name of an array"));
    } else {
        add_number("a literal", LITC);
    }
}

/* OPDC CELL, DESC CELL; the cell by its name or its number */
static void parse_call(unsigned kind)
{
    if (look_is_number())
        add_number("the number of a cell", kind);
    else
        add(kind, CELL_OF_NAME, take("the name of a cell"));
}

/* BFW LABEL or BFW COUNT, and so the others: the literal, then the operator */
static void parse_branch(unsigned bits, bool forward)
{
    if (look_is_number())
        add_number("the count of a branch", LITC);
    else
        add(LITC, forward ? FORWARD_TO_LABEL : BACK_TO_LABEL, take("the label of a branch"));
    add(bits, NOTHING, NULL);
}

static void parse_instruction(const char *name)
{
    unsigned bits;
    segment.last = segment.syllables;
    if (strcmp(name, "LITC") == 0)
        parse_literal();
    else if (strcmp(name, "OPDC") == 0)
        parse_call(OPDC);
    else if (strcmp(name, "DESC") == 0)
        parse_call(DESC);
    else if (strcmp(name, "syllable") == 0)
        add(take_number("a syllable", 0, 07777), NOTHING, NULL);
    else if (!operator_code(name, &bits))
        fail(line_now(), "'%s' is not known here", name);
    else if (name[0] == 'B')
        parse_branch(bits, name[1] == 'F');
    else
        add(bits, NOTHING, NULL);
}

static void parse_label(const char *name)
{
    check_name(name);
    for (unsigned i = 0; i < segment.labels; i++)
        if (strcmp(segment.label[i].name, name) == 0)
            fail(line_now(), "the label '%s' stands in line %u already", name, segment.label[i].line);
    if (segment.labels == MOST_LABELS)
        fail(line_now(), "there are over %d labels", MOST_LABELS);
    segment.label[segment.labels++] = (struct label){line_now(), segment.syllables, name};
}

void parse_code(void)
{
    while (look() != NULL) {
        char *word = take("an instruction");
        char *colon = word + strlen(word) - 1;
        if (*colon != ':') {
            parse_instruction(word);
            continue;
        }
        *colon = '\0';
        parse_label(word);
    }
}
