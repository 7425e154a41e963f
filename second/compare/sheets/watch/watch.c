/* A segment that passed: our machine and the second one make each step beside each other. */
#include "watch.h"
#include "ours.h"
#include "second.h"

#include <string.h>

uint64_t stops_seen[22];

/* Words that neither has written were the same before. */
static bool same_words(const struct done *done)
{
    for (unsigned i = 0; i < done->words; i++)
        if (ours_word(done->written[i]) != second_word(done->written[i]))
            return false;
    return true;
}

static const char *difference(const struct done *ours, const struct done *second)
{
    if (ours->number != second->number)
        return "a step's numbers differ";
    if (memcmp(&ours->g, &second->g, sizeof ours->g) != 0)
        return "a step's registers differ";
    return same_words(ours) && same_words(second) ? NULL : "a step's words differ";
}

/* After COM a segment may go on, unless that was its last syllable. */
static bool goes_on(const struct done *done)
{
    return done->number == 0 || (done->number == 17 && may_fetch(done->g.C));
}

struct watched watch_segment(const struct segment *seg, uint64_t budget)
{
    struct watched w = {.difference = NULL};
    read_rights(seg);
    if (!numbers_plain(seg->st.core)) {
        w.difference = "a flag is on at the start";
        return w;
    }
    ours_begin(seg);
    second_begin(seg);
    while (w.steps < budget) {
        struct done ours = ours_step(), second = second_one_step();
        w.ours = ours.broken;
        w.second = second.broken;
        w.difference = difference(&ours, &second);
        if (w.ours != NULL || w.second != NULL || w.difference != NULL)
            return w;
        w.steps += ours.number == 0 || ours.number == 17;
        stops_seen[ours.number] += ours.number != 0;
        if (!goes_on(&ours))
            return w;
    }
    stops_seen[0]++;
    return w;
}
