#include "panel.h"

#include <inttypes.h>
#include <stdarg.h>
#include <stdio.h>
#include <string.h>

#include "files.h"
#include "numbers.h"
#include "words.h"

void panel_say(struct panel *panel, const char *format, ...)
{
    va_list rest;

    va_start(rest, format);
    vsnprintf(panel->said, sizeof panel->said, format, rest);
    va_end(rest);
    for (char *at = panel->said; *at; at++)
        if (*at < ' ' || *at > '~')
            *at = '?';
}

void panel_start(struct panel *panel)
{
    memset(panel->start, 0, sizeof panel->start);
    put_word(panel->start, FIFTY_FIVE_R, 1);
    put_word(panel->start, FIFTY_FIVE_S, 31);
}

uint64_t panel_register(const struct panel *panel, enum fifty_five_register which)
{
    return word_at(panel->row, which);
}

size_t panel_words(const struct panel *panel)
{
    return panel->length / FIFTY_FIVE_WORD_BYTES;
}

/* ---- files */

/*
 * Loads the bytes that were read. Past the longest core the library's answer hangs on the length
 * alone, so a longer file is handed over as the shortest one that is too long by as many bytes
 * modulo 6.
 */
static uint64_t load_bytes(struct panel *panel, const uint8_t *file, size_t length)
{
    const size_t most = PANEL_MOST_BYTES;
    size_t lent = length <= most ? length : most;
    size_t given = length <= most ? length : most + 6 + length % 6;

    return fifty_five_load(file, given, panel->core, lent);
}

int panel_load(struct panel *panel, const char *name)
{
    static uint8_t file[PANEL_MOST_BYTES + 12];
    const size_t filled = PANEL_FILLED_WORDS * FIFTY_FIVE_WORD_BYTES;
    size_t length = 0;
    const char *why = file_read(name, file, sizeof file, &length);
    size_t words = length / FIFTY_FIVE_WORD_BYTES;
    uint64_t number;

    if (why) {
        panel_say(panel, "not loaded: %s: %.150s", why, name);
        return 0;
    }
    number = load_bytes(panel, file, length);
    if (number != FIFTY_FIVE_WENT_ON) {
        panel_say(panel, "refused with %" PRIu64 ": %s: %zu bytes in %.130s", number,
                  number_text(number), length, name);
        return 0;
    }
    panel->length = length;
    if (!panel->exact && length < filled) {
        memset(panel->core + length, 0, filled - length);
        panel->length = filled;
    }
    memcpy(panel->row, panel->start, sizeof panel->row);
    panel->completed = 0;
    snprintf(panel->file, sizeof panel->file, "%s", name);
    panel_say(panel, "loaded: %zu word%s%s", words, words == 1 ? "" : "s",
              panel->length > length ? ", filled up with 0" : "");
    return 1;
}

void panel_write(struct panel *panel, const char *name)
{
    const char *why = file_write(name, panel->core, panel->length);

    if (why)
        panel_say(panel, "not written: %s: %.150s", why, name);
    else
        panel_say(panel, "written: %zu words: %.150s", panel_words(panel), name);
}

/* ---- syllables */

static void say_answer(struct panel *panel, uint64_t number)
{
    size_t cell = (size_t)panel_register(panel, FIFTY_FIVE_R) * 64 + 9;
    char meaning[80];

    if (number == FIFTY_FIVE_WENT_ON)
        panel_say(panel, "0: %s", number_text(number));
    else if (number <= FIFTY_FIVE_BUDGET)
        panel_say(panel, "refused with %" PRIu64 ": %s", number, number_text(number));
    else if (number == FIFTY_FIVE_COMMUNICATE && cell < panel_words(panel)) {
        word_meaning(word_at(panel->core, cell), meaning, sizeof meaning);
        panel_say(panel, "stop 17: communicate: the word at 64R+9 is %016" PRIo64 ", %s",
                  word_at(panel->core, cell), meaning);
    } else
        panel_say(panel, "stop %" PRIu64 ": %s", number, number_text(number));
}

void panel_step(struct panel *panel)
{
    uint64_t number = fifty_five_step(panel->core, panel->length, panel->row, sizeof panel->row);

    if (number == FIFTY_FIVE_WENT_ON || number == FIFTY_FIVE_COMMUNICATE)
        panel->completed++;
    say_answer(panel, number);
}

void panel_run(struct panel *panel, const char *count)
{
    uint64_t budget, number, done;

    if (!read_decimal(count, &budget)) {
        panel_say(panel, "not a decimal count: '%.60s'", count);
        return;
    }
    number = fifty_five_run(panel->core, panel->length, panel->row, sizeof panel->row, budget, &done);
    panel->completed += done;
    if (number == FIFTY_FIVE_WENT_ON)
        panel_say(panel, "0: went on: the budget of %" PRIu64 " is spent", budget);
    else
        say_answer(panel, number);
}
