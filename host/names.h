/* The names of syllables, for showing only: what a syllable does is the library's matter. */
#ifndef NAMES_H
#define NAMES_H

#include <stddef.h>

/* The name of an operator by its syllable, or NULL where no operator is built. */
const char *operator_name(unsigned syllable);

/* A syllable in words: `LITC 005`, `OPDC 012`, `ADD`, `not built`. */
void syllable_text(unsigned syllable, char *text, size_t room);

#endif
