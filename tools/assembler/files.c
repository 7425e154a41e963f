/* The core file and the sheet: both are written whole beside their names and then renamed. */
#define _POSIX_C_SOURCE 200809L
#include "assembler.h"

#include <errno.h>
#include <stdio.h>
#include <string.h>
#include <sys/stat.h>

enum { RECORD = 6, MOST_NAME = 4096 };

struct output {
    const char *name;
    char beside[MOST_NAME];
    uint8_t bytes[RECORD * MOST_CORE];
    size_t length;
};

static void make_core(struct output *to)
{
    for (unsigned i = 0; i < segment.core; i++)
        for (unsigned j = 0; j < RECORD; j++)
            to->bytes[to->length++] = (uint8_t)(segment.word[i] >> (40 - 8 * j) & 255);
}

static void put_record(struct output *to, enum kind kind, unsigned first, unsigned count)
{
    const unsigned record[RECORD] = {kind, 0, first >> 8, first & 255, count >> 8, count & 255};
    for (unsigned j = 0; j < RECORD; j++)
        to->bytes[to->length++] = (uint8_t)record[j];
}

static void make_sheet(struct output *to)
{
    put_record(to, CODE, segment.code.first, segment.code.count);
    put_record(to, STACK, segment.stack.first, segment.stack.count);
    put_record(to, TABLE, segment.table.first, segment.table.count);
    for (unsigned i = 0; i < MOST_CELLS; i++)
        if (segment.cell[i].kind != CLOSED)
            put_record(to, segment.cell[i].kind, i, 1);
}

/* Says why a file cannot be written; answers false for its callers. */
static bool cannot(const char *name, const char *why)
{
    fprintf(stderr, "assemble: cannot write %s: %s\n", name, why);
    return false;
}

/* "x" refuses a file that is there; nothing but a plain file, such as a device, is renamed over. */
static bool write_beside(struct output *to)
{
    struct stat is;
    if (stat(to->name, &is) == 0 && !S_ISREG(is.st_mode))
        return cannot(to->name, "it is no plain file");
    FILE *out = fopen(to->beside, "wbx");
    if (out == NULL)
        return cannot(to->beside, strerror(errno));
    bool whole = fwrite(to->bytes, 1, to->length, out) == to->length;
    if (fclose(out) == 0 && whole)
        return true;
    cannot(to->beside, strerror(errno));
    remove(to->beside);
    return false;
}

static bool write_both(struct output *core, struct output *sheet)
{
    if (!write_beside(core))
        return false;
    if (!write_beside(sheet)) {
        remove(core->beside);
        return false;
    }
    if (rename(core->beside, core->name) == 0) {
        if (rename(sheet->beside, sheet->name) == 0)
            return true;
        cannot(sheet->name, strerror(errno));
        remove(core->name); /* no core without its sheet */
    } else {
        cannot(core->name, strerror(errno));
    }
    remove(core->beside);
    remove(sheet->beside);
    return false;
}

static bool name_beside(struct output *to)
{
    int length = snprintf(to->beside, MOST_NAME, "%s.new", to->name);
    return length > 0 && length < MOST_NAME;
}

bool write_files(const char *source, const char *core_name, const char *sheet_name)
{
    static struct output core, sheet;
    core.name = core_name;
    sheet.name = sheet_name;
    if (!name_beside(&core) || !name_beside(&sheet))
        return cannot(core_name, "a name is too long");
    const char *names[] = {source, core.name, sheet.name, core.beside, sheet.beside};
    for (unsigned i = 0; i < 5; i++)
        for (unsigned j = 0; j < i; j++)
            if (strcmp(names[i], names[j]) == 0)
                return cannot(names[i], "it is named twice, or is the source");
    make_core(&core);
    make_sheet(&sheet);
    return write_both(&core, &sheet);
}
