/* Each syllable is noted with the count of items that meets it. */
#include "emit.h"

void emit(struct program *to, unsigned syllable, int more_items)
{
    to->syllable[to->made++] = syllable;
    to->items = (unsigned)((int)to->items + more_items);
    to->items_before[to->made] = to->items;
}
