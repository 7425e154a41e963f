/* The assembler: makes a core file and a sheet of a source, or shows what they hold. */
#include "assembler.h"

#include <stdio.h>
#include <string.h>

static int usage(void)
{
    fprintf(stderr, "assemble SOURCE CORE SHEET   make the core file and the sheet of a source\n"
                    "assemble --list SOURCE       show its records and syllables\n");
    return 2;
}

static void need(const struct area *area, const char *name)
{
    if (area->line == 0)
        fail(line_now(), "there is no '%s' line", name);
}

static void read_segment(const char *source)
{
    open_source(source);
    while (next_line()) {
        if (!parse_part())
            parse_code();
        if (look() != NULL)
            fail(line_now(), "'%s' is too much on this line", look());
    }
    need(&segment.code, "code");
    need(&segment.stack, "stack");
    need(&segment.table, "table");
    finish_code();
}

int main(int argc, char **argv)
{
    if (argc == 3 && strcmp(argv[1], "--list") == 0) {
        read_segment(argv[2]);
        list();
        if (fflush(stdout) == 0 && !ferror(stdout))
            return 0;
        fprintf(stderr, "assemble: cannot write the list\n");
        return 1;
    }
    if (argc != 4)
        return usage();
    read_segment(argv[1]);
    return write_files(argv[1], argv[2], argv[3]) ? 0 : 1;
}
