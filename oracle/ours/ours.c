/* Reads questions from standard input, one a line, and prints Heronspan's answer to each, one a line, in the words of
   oracle/reference.py. The library is asked through the functions that customers call. Every call with a lent list is
   also held to what it may write; where it wrote elsewhere the answer says so, and so agrees with nobody's. */
#include <stdarg.h>
#include "../../include/heronspan.h"
#include "question.h"

enum { PLACES = 4096, EXTRA = 4, RECORD = 7, ROOM = -14 };

/* Answers. */

static void say(const char *form, ...)
{
    va_list values;
    va_start(values, form);
    vprintf(form, values);
    va_end(values);
}

static void say_number(int64_t n)
{
    if (n < 0)
        say("refused %lld", -(long long)n);
    else
        say("%lld", (long long)n);
}

static void say_code(int64_t n)
{
    if (n < 0)
        say_number(n);
    else
        say("%c%c", (int)(n >> 8), (int)(n & 255));
}

static void say_order(int64_t n)
{
    if (n < 0)
        say_number(n);
    else
        say("%lld", (long long)n - 1);
}

static void say_fields(uint32_t d)
{
    int64_t f = heronspan_fields(d), w = heronspan_weekday(d);
    if (f < 0 && f == w)
        say_number(f);
    else
        say("%lld %lld %lld %lld", (long long)f / 10000, (long long)f / 100 % 100, (long long)f % 100, (long long)w);
}

/* Counts with a sign, which stand in a lent list. */

static const int32_t UNWRITTEN = 0x5ea1ed;

static void say_count(int64_t n, const int32_t *out, int64_t without_place, const int32_t *untouched,
                      const char *before)
{
    if (without_place != ROOM || *untouched != UNWRITTEN)
        say("without a place %lld", (long long)without_place);
    else if (out[1] != UNWRITTEN || (n < 0 && out[0] != UNWRITTEN))
        say("wrote elsewhere");
    else if (n < 0)
        say_number(n);
    else if (n > 0)
        say("answered %lld", (long long)n);
    else
        say("%s%ld", before, (long)out[0]);
}

/* A date, and the days that it moved. */
static void say_moved(int64_t n, const int32_t *out, int64_t without_place, const int32_t *untouched)
{
    if (without_place != ROOM || *untouched != UNWRITTEN)
        say("without a place %lld", (long long)without_place);
    else if (out[1] != UNWRITTEN || (n < 0 && out[0] != UNWRITTEN))
        say("wrote elsewhere");
    else if (n < 0)
        say_number(n);
    else
        say("%lld %ld", (long long)n, (long)out[0]);
}

static void say_difference(uint32_t a, uint32_t b)
{
    int32_t out[2] = {UNWRITTEN, UNWRITTEN}, none = UNWRITTEN;
    int64_t n = heronspan_difference(a, b, out, 1);
    say_count(n, out, heronspan_difference(a, b, &none, 0), &none, "");
}

static void say_times(uint8_t u, int32_t length, int32_t times)
{
    int32_t out[2] = {UNWRITTEN, UNWRITTEN}, none = UNWRITTEN;
    char before[3] = {u < 4 ? UNITS[u] : '?', ' ', 0};
    int64_t n = heronspan_times(length, u, times, out, 1);
    say_count(n, out, heronspan_times(length, u, times, &none, 0), &none, before);
}

/* Builds. */

static uint32_t dates[PLACES + EXTRA], unadjusted[PLACES + EXTRA], answer[RECORD + EXTRA];
static uint8_t flags[PLACES + EXTRA];

enum { DATE = 0xd47e, BEFORE = 0xbef, FLAG = 0xf1, NUMBER = 0xa45 };

/* How many places are lent of the lists and of the record. */
struct lent {
    size_t dates, flags, unadjusted, record;
};

static struct lent evenly(size_t room)
{
    struct lent l = {room, room, room, RECORD};
    return l;
}

static size_t longest(struct lent l)
{
    size_t two = l.dates > l.flags ? l.dates : l.flags;
    return two > l.unadjusted ? two : l.unadjusted;
}

static void fresh(size_t places)
{
    for (size_t i = 0; i < places + EXTRA; i++) {
        dates[i] = DATE;
        flags[i] = FLAG;
        unadjusted[i] = BEFORE;
    }
    for (size_t i = 0; i < RECORD + EXTRA; i++)
        answer[i] = NUMBER;
}

/* Whether the places from those that were to be written keep their bytes. */
static int kept(size_t dates_written, size_t flags_written, size_t record, size_t places)
{
    for (size_t i = dates_written; i < places + EXTRA; i++)
        if (dates[i] != DATE || unadjusted[i] != BEFORE)
            return 0;
    for (size_t i = flags_written; i < places + EXTRA; i++)
        if (flags[i] != FLAG)
            return 0;
    for (size_t i = record; i < RECORD + EXTRA; i++)
        if (answer[i] != NUMBER)
            return 0;
    return 1;
}

/* A refusal's record is its number and zeros. */
static int recorded(int64_t n)
{
    if (answer[0] != (n < 0 ? (uint32_t)-n : 0) || answer[1] != (n < 0 ? 0 : (uint32_t)n))
        return 0;
    return n >= 0 || (answer[2] == 0 && answer[3] == 0 && answer[4] == 0 && answer[5] == 0 && answer[6] == 0);
}

/* Asks for a build; the request is the bytes last read where none is given. */
static int64_t called(const struct build *b, struct lent l)
{
    if (!b)
        return heronspan_build_bytes(code, code_length, dates, l.dates, flags, l.flags, unadjusted, l.unadjusted, answer,
                                     l.record);
    return heronspan_build(b->effective, b->termination, b->tenor, b->unit, b->rule, b->convention, b->terminal,
                           b->monthend, b->first, b->penultimate, b->calendar.mask, b->calendar.closed,
                           b->calendar.count, dates, l.dates, flags, l.flags, unadjusted, l.unadjusted, answer, l.record);
}

/* Builds into lists lent with these lengths; minus the refusal, or the count. Says too whether lists or record hold what
   they should not. */
static int64_t built(const struct build *b, struct lent l, int *wrong)
{
    size_t places = longest(l);
    fresh(places);
    int64_t n = called(b, l);
    size_t given = n > 0 ? (size_t)n : 0;
    *wrong = given > l.dates || !kept(given, given ? given - 1 : 0, l.record < RECORD ? 0 : RECORD, places) ||
             (l.record >= RECORD && !recorded(n));
    return n;
}

static void say_build(const struct build *b, struct lent l)
{
    int wrong;
    int64_t n = built(b, l, &wrong);
    if (wrong) {
        say("wrote elsewhere %lld", (long long)n);
        return;
    }
    if (n < 0) {
        say_number(n);
        return;
    }
    say("ok %u %c %u %lld", answer[3], answer[5] < 4 ? UNITS[answer[5]] : '?', answer[4], (long long)n);
    for (int64_t i = 0; i < n; i++)
        say(" %u", dates[i]);
    for (int64_t i = 0; i + 1 < n; i++)
        say(" %u", flags[i]);
    for (int64_t i = 0; i < n; i++)
        say(" %u", unadjusted[i]);
    say(" %u", answer[6]);
}

/* Tries, and the least room that suffices: looked for from one place below the list's own length. */
static void say_trace(const struct build *b)
{
    int wrong;
    int64_t n = built(b, evenly(PLACES), &wrong);
    if (wrong) {
        say("wrote elsewhere %lld", (long long)n);
        return;
    }
    if (n < 0) {
        say_number(n);
        return;
    }
    uint32_t tries = answer[2];
    for (size_t room = n > 0 ? (size_t)n - 1 : 0; room <= PLACES; room++) {
        int64_t again = built(b, evenly(room), &wrong);
        if (wrong || (again != n && again != ROOM) || (again == n && answer[2] != tries)) {
            say("room %zu answered %lld", room, (long long)again);
            return;
        }
        if (again == n) {
            say("ok %u %zu", tries, room);
            return;
        }
    }
    say("no room suffices twice");
}

/* The coming date and the flag of the period that it ends, - where it ends none. */
static void say_coming(uint32_t asked, const struct build *b)
{
    int64_t n = heronspan_coming(b->effective, b->termination, b->tenor, b->unit, b->rule, b->convention, b->terminal,
                                 b->monthend, b->first, b->penultimate, b->calendar.mask, b->calendar.closed,
                                 b->calendar.count, asked);
    if (n < 0)
        say_number(n);
    else if (n == 0)
        say("none");
    else if (HERONSPAN_MARK(n) == HERONSPAN_NO_PERIOD)
        say("%u -", HERONSPAN_DAY(n));
    else
        say("%u %d", HERONSPAN_DAY(n), HERONSPAN_MARK(n));
}

/* Year fractions: lists of that many places, with more behind them that are to stay. */

enum { MOST_PLACES = 8 };

static int kept_numbers(const uint32_t *list, size_t written)
{
    for (size_t i = written; i < MOST_PLACES; i++)
        if (list[i] != NUMBER)
            return 0;
    return 1;
}

static void say_numbers(int64_t n, const uint32_t *list, size_t given)
{
    if (!kept_numbers(list, n < 0 ? 0 : given))
        say("wrote elsewhere");
    else if (n < 0)
        say_number(n);
    else if (n > 0)
        say("answered %lld", (long long)n);
    else
        for (size_t i = 0; i < given; i++)
            say(i ? " %u" : "%u", list[i]);
}

static size_t lent_places(uint32_t *list)
{
    size_t places = (size_t)number();
    if (places >= MOST_PLACES)
        stop("longer lists than there are");
    for (size_t i = 0; i < MOST_PLACES; i++)
        list[i] = NUMBER;
    return places;
}

static int ask_year(const char *kind)
{
    static uint32_t days[PLACES];
    uint32_t list[MOST_PLACES];
    if (strcmp(kind, "yearfraction") == 0) {
        uint8_t basis = byte();
        uint32_t start = day();
        int64_t n = heronspan_year_fraction(basis, start, day());
        if (n < 0)
            say_number(n);
        else
            say("%016llx", (unsigned long long)n);
    } else if (strcmp(kind, "yearparts") == 0) {
        size_t places = lent_places(list);
        uint8_t basis = byte();
        uint32_t start = day();
        say_numbers(heronspan_year_parts(basis, start, day(), list, places), list, 2);
    } else if (strcmp(kind, "yearreport") == 0) {
        size_t places = lent_places(list), count = (size_t)number();
        if (count > PLACES)
            stop("more dates than there are places");
        for (size_t i = 0; i < count; i++)
            days[i] = day();
        say_numbers(heronspan_year_report(days, count, list, places), list, 3);
    } else {
        return 0;
    }
    return 1;
}

static int is(const char *kind, const char *name)
{
    return strcmp(kind, name) == 0;
}

static int ask_schedule(const char *kind)
{
    if (is(kind, "build")) {
        struct build b = read_build();
        say_build(&b, evenly(PLACES));
    } else if (is(kind, "trace")) {
        struct build b = read_build();
        say_trace(&b);
    } else if (is(kind, "coming")) {
        uint32_t asked = day();
        struct build b = read_build();
        say_coming(asked, &b);
    } else if (is(kind, "lent") || is(kind, "bytes")) {
        struct lent l;
        l.dates = (size_t)number();
        l.flags = (size_t)number();
        l.unadjusted = (size_t)number();
        l.record = (size_t)number();
        if (longest(l) > PLACES || l.record > RECORD + EXTRA)
            stop("longer lists than there are");
        struct build b;
        if (is(kind, "lent"))
            b = read_build();
        else
            read_code();
        say_build(is(kind, "lent") ? &b : NULL, l);
    } else {
        return 0;
    }
    return 1;
}

static int ask_date(const char *kind)
{
    if (is(kind, "dateadvance")) {
        uint32_t d = day();
        uint8_t u = unit();
        say_number(heronspan_advance(d, count(), u));
    } else if (is(kind, "nth")) {
        uint32_t n = day(), w = day(), m = day();
        say_number(heronspan_nth_weekday(n, w, m, day()));
    } else if (is(kind, "nextweekday")) {
        uint32_t d = day();
        say_number(heronspan_next_weekday(d, day()));
    } else if (is(kind, "dmonthend")) {
        say_number(heronspan_month_end(day()));
    } else if (is(kind, "make")) {
        uint32_t y = day(), m = day();
        say_number(heronspan_make(y, m, day()));
    } else if (is(kind, "fields")) {
        say_fields(day());
    } else if (is(kind, "difference")) {
        uint32_t a = day();
        say_difference(a, day());
    } else if (is(kind, "compare")) {
        uint32_t a = day();
        say_order(heronspan_compare(a, day()));
    } else if (is(kind, "times")) {
        uint8_t u = unit();
        int32_t length = count();
        say_times(u, length, count());
    } else {
        return 0;
    }
    return 1;
}

/* The list that a run stands in and where it starts; nothing may be written beyond, and nothing on a refusal. */
static void say_run(uint32_t year, struct dates desk, struct dates house)
{
    uint32_t place[3] = {77, 78, 79};
    int64_t n = heronspan_desk_run(desk.at, desk.count, house.at, house.count, year, place, 2);
    int64_t asked = heronspan_desk_check(desk.at, desk.count, house.at, house.count, year);
    if (place[2] != 79 || (n < 0 && (place[0] != 77 || place[1] != 78)) || (n < 0 ? n : 0) != asked)
        say("wrote elsewhere, or asked %lld", (long long)asked);
    else if (n < 0)
        say_number(n);
    else
        say("%lld %u %u", (long long)n, place[0], place[1]);
    if (heronspan_desk_run(desk.at, desk.count, house.at, house.count, year, place, 1) != ROOM)
        say(" no room was not refused");
}

/* The combined list; the places behind it keep what they held, and all of them on a refusal. */
static void say_combined(size_t places, struct dates desk, struct dates house)
{
    fresh(places);
    int64_t n = heronspan_desk_combine(desk.at, desk.count, house.at, house.count, dates, places);
    if (!kept(n < 0 ? 0 : (size_t)n, 0, 0, places))
        say("wrote elsewhere");
    else if (n < 0)
        say_number(n);
    else {
        say("%lld", (long long)n);
        for (int64_t i = 0; i < n; i++)
            say(" %u", dates[i]);
    }
}

static int ask_calendar(const char *kind)
{
    int32_t out[2] = {UNWRITTEN, UNWRITTEN}, none = UNWRITTEN;
    if (is(kind, "check")) {
        struct calendar c = calendar();
        say_number(heronspan_calendar_check(c.mask, c.closed, c.count));
    } else if (is(kind, "open")) {
        uint32_t d = day();
        struct calendar c = calendar();
        say_number(heronspan_is_open(d, c.mask, c.closed, c.count));
    } else if (is(kind, "adjust")) {
        uint32_t d = day();
        uint8_t convention = byte();
        struct calendar c = calendar();
        int64_t n = heronspan_adjust(d, convention, c.mask, c.closed, c.count, out, 1);
        say_moved(n, out, heronspan_adjust(d, convention, c.mask, c.closed, c.count, &none, 0), &none);
    } else if (is(kind, "deskrun")) {
        uint32_t year = (uint32_t)number();
        struct dates desk = dates_in(0), house = dates_in(1);
        say_run(year, desk, house);
    } else if (is(kind, "deskadjust")) {
        uint32_t d = day();
        uint8_t convention = byte(), mask = byte();
        struct dates desk = dates_in(0), house = dates_in(1);
        int64_t n = heronspan_desk_adjust(d, convention, mask, desk.at, desk.count, house.at, house.count, out, 1);
        say_moved(n, out, heronspan_desk_adjust(d, convention, mask, desk.at, desk.count, house.at, house.count, &none, 0), &none);
    } else if (is(kind, "deskcombine")) {
        size_t places = (size_t)number();
        struct dates desk = dates_in(0), house = dates_in(1);
        if (places > PLACES)
            stop("more places than there are");
        say_combined(places, desk, house);
    } else if (is(kind, "monthend")) {
        uint32_t d = day();
        struct calendar c = calendar();
        int64_t n = heronspan_calendar_month_end(d, c.mask, c.closed, c.count, out, 1);
        say_moved(n, out, heronspan_calendar_month_end(d, c.mask, c.closed, c.count, &none, 0), &none);
    } else if (is(kind, "ismonthend")) {
        uint32_t d = day();
        struct calendar c = calendar();
        say_number(heronspan_is_month_end(d, c.mask, c.closed, c.count));
    } else if (is(kind, "advance")) {
        uint32_t d = day();
        uint8_t u = unit();
        int32_t length = count();
        uint8_t convention = byte(), monthend = byte();
        struct calendar c = calendar();
        int64_t n = heronspan_calendar_advance(d, length, u, convention, monthend, c.mask, c.closed, c.count, out, 1);
        say_moved(n, out, heronspan_calendar_advance(d, length, u, convention, monthend, c.mask, c.closed, c.count, &none, 0), &none);
    } else {
        return 0;
    }
    return 1;
}

/* Open days by an index. */

enum { COUNT = 0x1dea, COUNTS = 3 * HERONSPAN_PLACES };

static uint32_t counts[COUNTS];

/* The index that was made of the calendar, in as many places, or a pattern where it cannot be made. */
static void made(const struct calendar *c, size_t places)
{
    if (places > COUNTS - EXTRA)
        stop("a longer index than there is");
    for (size_t i = 0; i < COUNTS; i++)
        counts[i] = COUNT;
    if (places == HERONSPAN_PLACES)
        heronspan_index_make(c->mask, c->closed, c->count, counts, places);
}

/* The counts as one number, where the call was done; a refusal leaves them, and no call writes beyond them. */
static void say_index(int64_t n, const uint32_t *before, size_t places)
{
    uint32_t digest = 0;
    for (size_t i = 0; i < places; i++)
        digest = digest * 31 + counts[i];
    for (size_t i = places; i < COUNTS; i++)
        if (counts[i] != COUNT) {
            say("wrote elsewhere");
            return;
        }
    if (n < 0 && memcmp(before, counts, places * sizeof *counts) != 0)
        say("wrote though refused");
    else if (n > 0)
        say("answered %lld", (long long)n);
    else
        n < 0 ? say_number(n) : say("%lu", (unsigned long)digest);
}

static int ask_index(const char *kind)
{
    static uint32_t before[COUNTS];
    if (is(kind, "ixmake")) {
        size_t places = (size_t)number();
        struct calendar c = calendar();
        made(&c, 0);
        memcpy(before, counts, sizeof counts);
        say_index(heronspan_index_make(c.mask, c.closed, c.count, counts, places), before, places);
    } else if (is(kind, "ixcount")) {
        uint32_t first = day(), last = day();
        size_t places = (size_t)number();
        struct calendar c = calendar();
        made(&c, places);
        say_number(heronspan_index_count(first, last, c.mask, c.closed, c.count, counts, places));
    } else if (is(kind, "ixnth")) {
        uint32_t d = day(), n = day();
        size_t places = (size_t)number();
        struct calendar c = calendar();
        made(&c, places);
        say_number(heronspan_index_nth(d, n, c.mask, c.closed, c.count, counts, places));
    } else if (is(kind, "ixadd") || is(kind, "ixremove")) {
        uint32_t d = day();
        size_t places = (size_t)number();
        struct calendar c = calendar();
        made(&c, places);
        memcpy(before, counts, sizeof counts);
        int64_t n = is(kind, "ixadd") ? heronspan_index_add(d, c.mask, c.closed, c.count, counts, places)
                                      : heronspan_index_remove(d, c.mask, c.closed, c.count, counts, places);
        say_index(n, before, places);
    } else {
        return 0;
    }
    return 1;
}

static int ask_cycle(const char *kind)
{
    if (is(kind, "next20")) {
        uint32_t d = day();
        say_number(heronspan_next_twentieth(d, byte()));
    } else if (is(kind, "prev20")) {
        uint32_t d = day();
        say_number(heronspan_previous_twentieth(d, byte()));
    } else if (is(kind, "immdate")) {
        uint32_t d = day();
        say_number(heronspan_is_imm_date(d, byte()));
    } else if (is(kind, "immcode")) {
        read_code();
        say_number(heronspan_is_imm_code(code, code_length, byte()));
    } else if (is(kind, "code")) {
        say_code(heronspan_imm_code(day()));
    } else if (is(kind, "date")) {
        read_code();
        say_number(heronspan_imm_date(code, code_length, day()));
    } else if (is(kind, "nextdate")) {
        uint32_t d = day();
        say_number(heronspan_next_imm_date(d, byte()));
    } else if (is(kind, "nextdatecode")) {
        read_code();
        uint8_t main_cycle = byte();
        say_number(heronspan_next_imm_date_with_code(code, code_length, main_cycle, day()));
    } else if (is(kind, "nextcode")) {
        uint32_t d = day();
        say_code(heronspan_next_imm_code(d, byte()));
    } else if (is(kind, "nextcodecode")) {
        read_code();
        uint8_t main_cycle = byte();
        say_code(heronspan_next_imm_code_with_code(code, code_length, main_cycle, day()));
    } else {
        return 0;
    }
    return 1;
}

int main(void)
{
    static char input[1 << 16], output[1 << 16];
    setvbuf(stdin, input, _IOFBF, sizeof input);
    setvbuf(stdout, output, _IOFBF, sizeof output);
    while (next_line()) {
        char *kind = word();
        if (!ask_schedule(kind) && !ask_date(kind) && !ask_calendar(kind) && !ask_index(kind) && !ask_cycle(kind) &&
            !ask_year(kind))
            stop("no such question");
        end();
        putchar('\n');
    }
    return 0;
}
