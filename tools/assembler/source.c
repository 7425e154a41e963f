/* Reads the source: lines of words between spaces; '#' starts a comment. */
#include "assembler.h"

#include <ctype.h>
#include <errno.h>
#include <stdarg.h>
#include <stdio.h>
#include <stdlib.h>
#include <string.h>

enum { MOST_SOURCE = 1 << 20 };

static char text[MOST_SOURCE + 2]; /* a byte too many shows, and the last line can be closed */
static char *at, *end;             /* the lines still to be read */
static char *rest, *word;          /* of the line: what is left, and the next word */
static unsigned line;
static const char *file;

void fail(unsigned number, const char *format, ...)
{
    va_list values;
    va_start(values, format);
    fprintf(stderr, "%s:%u: ", file, number);
    vfprintf(stderr, format, values);
    fputc('\n', stderr);
    va_end(values);
    exit(1);
}

void open_source(const char *path)
{
    file = path;
    FILE *in = fopen(path, "rb");
    size_t length = in == NULL ? 0 : fread(text, 1, MOST_SOURCE + 1, in);
    if (in == NULL || ferror(in)) {
        fprintf(stderr, "assemble: cannot read %s: %s\n", path, strerror(errno));
        exit(1);
    }
    fclose(in);
    if (length > MOST_SOURCE)
        fail(1, "the source is over %d bytes", MOST_SOURCE);
    at = text;
    end = text + length;
}

static bool is_space(char c) { return c == ' ' || c == '\t' || c == '\r'; }

static void find_word(void)
{
    while (is_space(*rest))
        rest++;
    word = *rest == '\0' ? NULL : rest;
    while (*rest != '\0' && !is_space(*rest))
        rest++;
    if (*rest != '\0')
        *rest++ = '\0';
}

/* Closes the line at its feed, and at its comment; a comment may hold any character. */
static void cut_line(void)
{
    char *feed = memchr(at, '\n', (size_t)(end - at));
    if (feed == NULL)
        feed = end;
    line++;
    rest = at;
    at = feed == end ? end : feed + 1;
    char *c = rest;
    for (; c < feed && *c != '#'; c++)
        if (!is_space(*c) && (*c < '!' || *c > '~'))
            fail(line, "a character that is not plain ASCII stands outside a comment");
    *c = '\0';
}

bool next_line(void)
{
    while (at < end) {
        cut_line();
        find_word();
        if (word != NULL)
            return true;
    }
    return false;
}

unsigned line_now(void) { return line; }

const char *look(void) { return word; }

bool look_is(const char *s) { return word != NULL && strcmp(word, s) == 0; }

bool look_is_number(void) { return word != NULL && isdigit((unsigned char)*word); }

char *take(const char *what)
{
    char *taken = word;
    if (taken == NULL)
        fail(line, "%s is missing at the end of the line", what);
    find_word();
    return taken;
}

/* Decimal, or octal after 0o. What is too large for a word becomes 2^48. */
static bool read_number(const char *s, uint64_t *value)
{
    unsigned base = s[0] == '0' && s[1] == 'o' ? 8 : 10;
    if (base == 8)
        s += 2;
    else if (s[0] == '0' && s[1] != '\0')
        return false;
    *value = 0;
    if (*s == '\0')
        return false;
    for (; *s != '\0'; s++) {
        if (*s < '0' || *s >= (char)('0' + base))
            return false;
        *value = *value * base + (unsigned)(*s - '0');
        if (*value > UINT64_C(1) << 48)
            *value = UINT64_C(1) << 48;
    }
    return true;
}

static uint64_t number_of(const char *s, const char *what, uint64_t least, uint64_t most)
{
    uint64_t value;
    if (!read_number(s, &value))
        fail(line, "'%s' is not a number for %s (octal is written 0o17)", s, what);
    if (value < least || value > most)
        fail(line, "%s is %s, but it must be %llu to %llu", what, s, (unsigned long long)least,
             (unsigned long long)most);
    return value;
}

unsigned take_number(const char *what, unsigned least, unsigned most)
{
    return (unsigned)number_of(take(what), what, least, most);
}

uint64_t take_word(void)
{
    return number_of(take("a word"), "a word", 0, (UINT64_C(1) << 48) - 1);
}

/* A signed whole number as an operand; minus zero is zero. */
uint64_t take_operand(void)
{
    const char *s = take("a value");
    bool minus = *s == '-';
    uint64_t magnitude = number_of(s + minus, "a value without its sign", 0, (UINT64_C(1) << 39) - 1);
    return minus && magnitude != 0 ? UINT64_C(1) << 46 | magnitude : magnitude;
}

/* A letter, then letters, digits and '_'. */
void check_name(const char *s)
{
    const char *c = s;
    while (isalnum((unsigned char)*c) || *c == '_')
        c++;
    if (!isalpha((unsigned char)*s) || *c != '\0')
        fail(line, "'%s' is not a name: a letter, then letters, digits and _", s);
}
