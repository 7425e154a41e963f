/*
 * The panel's names against the library: an operator has a name exactly where a step of it does not
 * answer 19. The core is operands, so that no other part of a syllable can answer 19.
 * The last line is 'N passed, M failed': one check, of all 4,096 syllables.
 */
#include <stdint.h>
#include <stdio.h>
#include <string.h>

#include "../host/names.h"
#include "../host/words.h"
#include "../include/fifty_five.h"

enum { WORDS = 128 };

static int is_built(unsigned syllable)
{
    uint8_t core[WORDS * FIFTY_FIVE_WORD_BYTES] = {0}, row[FIFTY_FIVE_ROW_BYTES] = {0};

    put_word(core, 0, (uint64_t)syllable << 36);
    put_word(row, FIFTY_FIVE_R, 1);
    put_word(row, FIFTY_FIVE_S, 31);
    return fifty_five_step(core, sizeof core, row, sizeof row) != FIFTY_FIVE_NOT_BUILT;
}

/* Literals and calls are told by their last two bits; all else is an operator. */
static int is_named(unsigned syllable)
{
    char text[32];

    syllable_text(syllable, text, sizeof text);
    return strcmp(text, "not built") != 0;
}

int main(void)
{
    int differ = 0;

    for (unsigned syllable = 0; syllable < 4096; syllable++) {
        if (is_built(syllable) == is_named(syllable))
            continue;
        differ++;
        printf("names: FAILED: %04o: %s\n", syllable, is_named(syllable) ? "named, not built" : "built, no name");
    }
    printf("%d passed, %d failed\n", differ == 0, differ > 0);
    return differ > 0;
}
