/* Reads questions, one a line (oracle/README.md lists them). For C and C++. */
#ifndef QUESTION_H
#define QUESTION_H
#include <stddef.h>
#include <stdint.h>
#include <stdio.h>
#include <stdlib.h>
#include <string.h>

static unsigned long line_number;
static char *rest;

static void stop(const char *why)
{
    fprintf(stderr, "line %lu: %s\n", line_number, why);
    exit(1);
}

/* Takes the next line; false when there is none. */
static int next_line(void)
{
    static char *line;
    static size_t room;
    if (getline(&line, &room, stdin) <= 0)
        return 0;
    line_number++;
    rest = line;
    return 1;
}

/* Words of a question, taken from the left. */

static char *word(void)
{
    while (*rest == ' ')
        rest++;
    if (*rest == 0 || *rest == '\n')
        stop("too few words");
    char *start = rest;
    while (*rest && *rest != ' ' && *rest != '\n')
        rest++;
    if (*rest)
        *rest++ = 0;
    return start;
}

static long long number(void)
{
    char *text = word(), *end;
    long long n = strtoll(text, &end, 10);
    if (*end)
        stop("not a number");
    return n;
}

/* A negative number becomes one far outside every list. */
static uint32_t day(void)
{
    return (uint32_t)number();
}

static int32_t count(void)
{
    long long n = number();
    if (n < INT32_MIN || n > INT32_MAX)
        stop("a count beyond 32 bits");
    return (int32_t)n;
}

static uint8_t byte(void)
{
    long long n = number();
    if (n < 0 || n > 255)
        stop("not a byte");
    return (uint8_t)n;
}

static const char UNITS[] = "DWMY";

/* A letter, or the byte itself. */
static uint8_t unit(void)
{
    char *text = word();
    const char *found = text[1] == 0 ? strchr(UNITS, text[0]) : NULL;
    if (found)
        return (uint8_t)(found - UNITS);
    int n = atoi(text);
    if (n < 4 || n > 255)
        stop("not a unit");
    return (uint8_t)n;
}

/* Bytes as last read: a code, or a request. */
static uint8_t *code;
static size_t code_length;

static int hex(char c)
{
    return c >= '0' && c <= '9' ? c - '0' : c >= 'a' && c <= 'f' ? c - 'a' + 10 : -1;
}

static void read_code(void)
{
    static uint8_t bytes[65536];
    char *text = word();
    code = bytes;
    code_length = 0;
    if (strcmp(text, "-") == 0)
        return;
    for (; *text; text += 2) {
        if (hex(text[0]) < 0 || hex(text[1]) < 0 || code_length == sizeof bytes)
            stop("not bytes");
        bytes[code_length++] = (uint8_t)(hex(text[0]) << 4 | hex(text[1]));
    }
}

struct dates {
    uint32_t *at;
    size_t count;
};

/* A count and as many days; two such lists can stand beside each other. */
static struct dates dates_in(int which)
{
    static uint32_t *places[2];
    static size_t room[2];
    struct dates d;
    d.count = (size_t)number();
    if (d.count > room[which]) {
        room[which] = d.count;
        places[which] = (uint32_t *)realloc(places[which], d.count * sizeof **places);
        if (!places[which])
            stop("no memory");
    }
    for (size_t i = 0; i < d.count; i++)
        places[which][i] = day();
    d.at = d.count ? places[which] : NULL;
    return d;
}

struct calendar {
    uint8_t mask;
    uint32_t *closed;
    size_t count;
};

static struct calendar calendar(void)
{
    struct calendar c;
    c.mask = byte();
    struct dates closed = dates_in(0);
    c.closed = closed.at;
    c.count = closed.count;
    return c;
}

static void end(void)
{
    while (*rest == ' ')
        rest++;
    if (*rest && *rest != '\n')
        stop("too many words");
}

struct build {
    uint32_t effective, termination;
    int32_t tenor;
    uint8_t unit, rule, convention, terminal, monthend;
    uint32_t first, penultimate;
    struct calendar calendar;
};

static struct build read_build(void)
{
    struct build b;
    b.effective = day();
    b.termination = day();
    b.unit = unit();
    b.tenor = count();
    b.rule = byte();
    b.convention = byte();
    b.terminal = byte();
    b.monthend = byte();
    b.first = day();
    b.penultimate = day();
    b.calendar = calendar();
    end();
    return b;
}

#endif
