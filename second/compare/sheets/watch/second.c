/* The second machine's trace, told by its hooks. */
#include "second.h"
#include "../../machine/plant.h"

#include <string.h>

static struct state st;
static uint64_t last_core[MOST];
static uint64_t code;
static unsigned fetches;

void second_begin(const struct segment *seg)
{
    st.length = seg->st.length;
    st.g = seg->st.g;
    code = seg->record[0].first;
    memcpy(st.core, seg->st.core, sizeof *st.core * st.length);
    memcpy(last_core, st.core, sizeof *st.core * st.length);
}

uint64_t second_word(uint64_t address) { return st.core[address]; }

static void note_fetch(void *watcher, uint64_t address)
{
    fetches++;
    must_fetch(watcher, address);
}

static void note_write(void *watcher, uint64_t address) { must_write(watcher, address); }

/* What changed was written before the watcher's eyes; so every number that is not written is one still. */
static void look_at_core(struct done *done)
{
    for (unsigned i = 0; i < done->words; i++) {
        uint64_t at = done->written[i];
        last_core[at] = st.core[at];
        must_be_plain(done, at, st.core[at]);
    }
    must(done, memcmp(last_core, st.core, sizeof *last_core * st.length) == 0,
         "a word changed that was not seen written");
}

struct done second_one_step(void)
{
    struct done done = {.broken = NULL};
    const struct second_watch watch = {note_fetch, note_write, &done};
    fetches = 0;
    done.number = (uint64_t)second_step_watched(st.core, st.length, &st.g, &watch);
    /* A planted write is one into the code. */
    if (planted(PLANT_WATCH))
        note_write(&done, code);
    done.g = st.g;
    look_at_core(&done);
    must(&done, fetches == 1, "not one fetch");
    must_end_well(&done);
    return done;
}
