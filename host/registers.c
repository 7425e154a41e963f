#include <inttypes.h>
#include <string.h>
#include <strings.h>

#include "numbers.h"
#include "panel.h"
#include "words.h"

/* A run of no syllables makes the library's checks and moves nothing. */
static uint64_t check_row(struct panel *panel, uint8_t *row)
{
    uint64_t done = 0;

    return fifty_five_run(panel->core, panel->length, row, FIFTY_FIVE_ROW_BYTES, 0, &done);
}

int panel_check_start(struct panel *panel)
{
    uint64_t number = check_row(panel, panel->start);

    if (number != FIFTY_FIVE_WENT_ON)
        panel_say(panel, "the starting registers are refused with %" PRIu64 ": %s", number,
                  number_text(number));
    return number == FIFTY_FIVE_WENT_ON;
}

int read_octal(const char *text, uint64_t *number)
{
    *number = 0;
    if (!*text)
        return 0;
    for (; *text; text++) {
        if (*text < '0' || *text > '7' || *number >> 45)
            return 0;
        *number = *number << 3 | (uint64_t)(*text - '0');
    }
    return 1;
}

int read_decimal(const char *text, uint64_t *number)
{
    *number = 0;
    if (!*text)
        return 0;
    for (; *text; text++) {
        uint64_t digit = (uint64_t)(*text - '0');
        if (*text < '0' || *text > '9' || *number > (UINT64_MAX - digit) / 10)
            return 0;
        *number = *number * 10 + digit;
    }
    return 1;
}

static const struct {
    const char *name;
    enum fifty_five_register which;
} registers[] = {
    {"A", FIFTY_FIVE_A}, {"B", FIFTY_FIVE_B}, {"S", FIFTY_FIVE_S}, {"F", FIFTY_FIVE_F},
    {"C", FIFTY_FIVE_C}, {"R", FIFTY_FIVE_R}, {"L", FIFTY_FIVE_L},
    {"SALF", FIFTY_FIVE_SALF}, {"MSFF", FIFTY_FIVE_MSFF},
};

static int find_register(const char *name)
{
    for (size_t i = 0; i < sizeof registers / sizeof registers[0]; i++)
        if (strcasecmp(registers[i].name, name) == 0)
            return (int)i;
    return -1;
}

/* Puts a value in a row; answers 0 if the text is none for this register. */
static int put_value(uint8_t *row, enum fifty_five_register which, const char *text)
{
    int marked = which == FIFTY_FIVE_A || which == FIFTY_FIVE_B;
    int flag = which == FIFTY_FIVE_SALF || which == FIFTY_FIVE_MSFF;
    uint64_t value;

    if (marked && strcasecmp(text, "empty") == 0) {
        put_word(row, which, 0);
        put_word(row, which + 1, 0);
        return 1;
    }
    if (marked && strcasecmp(text, "full") == 0) {
        put_word(row, which + 1, 1);
        return 1;
    }
    if (flag && strcasecmp(text, "on") == 0)
        text = "1";
    if (flag && strcasecmp(text, "off") == 0)
        text = "0";
    if (!read_octal(text, &value))
        return 0;
    put_word(row, which, value);
    if (marked)
        put_word(row, which + 1, 1);
    return 1;
}

/* The name, then the rest without spaces, so that a word may be typed in groups as it is shown. */
static void split(const char *text, char *name, char *value, size_t room)
{
    size_t at = 0;

    text += strspn(text, " =");
    for (; *text && !strchr(" =", *text); text++)
        if (at + 1 < room)
            name[at++] = *text;
    name[at] = 0;
    for (at = 0; *text; text++)
        if (!strchr(" =", *text) && at + 1 < room)
            value[at++] = *text;
    value[at] = 0;
}

void panel_set(struct panel *panel, const char *text)
{
    uint8_t row[FIFTY_FIVE_ROW_BYTES];
    char name[PANEL_NAME_ROOM], value[PANEL_NAME_ROOM];
    int found;
    uint64_t number;

    split(text, name, value, sizeof name);
    found = find_register(name);
    if (found < 0) {
        panel_say(panel, "no such register: '%.20s' (A, B, S, F, C, R, L, SALF, MSFF)", name);
        return;
    }
    memcpy(row, panel->row, sizeof row);
    if (!put_value(row, registers[found].which, value)) {
        panel_say(panel, "not an octal value of 48 bits for %s: '%.30s'", registers[found].name, value);
        return;
    }
    number = check_row(panel, row);
    if (number != FIFTY_FIVE_WENT_ON) {
        panel_say(panel, "%s %.20s refused with %" PRIu64 ": %s; nothing changed",
                  registers[found].name, value, number, number_text(number));
        return;
    }
    memcpy(panel->row, row, sizeof row);
    panel_say(panel, "%s := %.20s", registers[found].name, value);
}
