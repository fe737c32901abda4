/* (a) Our library, by the functions that customers call. */
#include "../include/heronspan.h"
#include "timing.h"

enum { PLACES = 4096, RECORD = 7 };

struct asked {
    struct build build;
    uint32_t day;
    int32_t length;
    uint8_t unit, convention, monthend, main_cycle, basis;
    uint32_t end_day, list[3];
    size_t count;
    struct calendar calendar;
    struct dates desk, house;
    int64_t answer;
};

static uint32_t dates[PLACES], unadjusted[PLACES], record[RECORD];
static uint8_t flags[PLACES];
static int32_t moved[1];

static void build(void *with)
{
    struct asked *a = (struct asked *)with;
    struct build *b = &a->build;
    a->answer = heronspan_build(b->effective, b->termination, b->tenor, b->unit, b->rule, b->convention, b->terminal,
                                b->monthend, b->first, b->penultimate, b->calendar.mask, b->calendar.closed,
                                b->calendar.count, dates, PLACES, flags, PLACES, unadjusted, PLACES, record, RECORD);
}

static void coming(void *with)
{
    struct asked *a = (struct asked *)with;
    struct build *b = &a->build;
    a->answer = heronspan_coming(b->effective, b->termination, b->tenor, b->unit, b->rule, b->convention, b->terminal,
                                 b->monthend, b->first, b->penultimate, b->calendar.mask, b->calendar.closed,
                                 b->calendar.count, a->day);
}

static void adjust(void *with)
{
    struct asked *a = (struct asked *)with;
    a->answer = heronspan_adjust(a->day, a->convention, a->calendar.mask, a->calendar.closed, a->calendar.count, moved, 1);
}

static void advance(void *with)
{
    struct asked *a = (struct asked *)with;
    a->answer = heronspan_calendar_advance(a->day, a->length, a->unit, a->convention, a->monthend, a->calendar.mask,
                                           a->calendar.closed, a->calendar.count, moved, 1);
}

static void is_imm(void *with)
{
    struct asked *a = (struct asked *)with;
    a->answer = heronspan_is_imm_date(a->day, a->main_cycle);
}

static void next_imm(void *with)
{
    struct asked *a = (struct asked *)with;
    a->answer = heronspan_next_imm_date(a->day, a->main_cycle);
}

static void imm_code(void *with)
{
    struct asked *a = (struct asked *)with;
    a->answer = heronspan_imm_code(a->day);
}

static void imm_date(void *with)
{
    struct asked *a = (struct asked *)with;
    a->answer = heronspan_imm_date(code, code_length, a->day);
}

static void year_fraction(void *with)
{
    struct asked *a = (struct asked *)with;
    a->answer = heronspan_year_fraction(a->basis, a->day, a->end_day);
}

static void year_parts(void *with)
{
    struct asked *a = (struct asked *)with;
    a->answer = heronspan_year_parts(a->basis, a->day, a->end_day, a->list, 2);
}

static void year_report(void *with)
{
    struct asked *a = (struct asked *)with;
    a->answer = heronspan_year_report(dates, a->count, a->list, 3);
}

/* Open days by an index, which is made before the calls. */

static uint32_t counts[HERONSPAN_PLACES];

static void check(void *with)
{
    struct asked *a = (struct asked *)with;
    a->answer = heronspan_calendar_check(a->calendar.mask, a->calendar.closed, a->calendar.count);
}

static void index_make(void *with)
{
    struct asked *a = (struct asked *)with;
    a->answer = heronspan_index_make(a->calendar.mask, a->calendar.closed, a->calendar.count, counts, HERONSPAN_PLACES);
}

static void index_count(void *with)
{
    struct asked *a = (struct asked *)with;
    a->answer = heronspan_index_count(a->day, (uint32_t)a->length, a->calendar.mask, a->calendar.closed, a->calendar.count,
                                      counts, HERONSPAN_PLACES);
}

static void index_nth(void *with)
{
    struct asked *a = (struct asked *)with;
    a->answer = heronspan_index_nth(a->day, (uint32_t)a->length, a->calendar.mask, a->calendar.closed, a->calendar.count,
                                    counts, HERONSPAN_PLACES);
}

static void index_add(void *with)
{
    struct asked *a = (struct asked *)with;
    a->answer = heronspan_index_add(a->day, a->calendar.mask, a->calendar.closed, a->calendar.count, counts, HERONSPAN_PLACES);
}

static void index_remove(void *with)
{
    struct asked *a = (struct asked *)with;
    a->answer = heronspan_index_remove(a->day, a->calendar.mask, a->calendar.closed, a->calendar.count, counts, HERONSPAN_PLACES);
}

static int ask_index(const char *kind, struct asked *a)
{
    static const struct {
        const char *kind;
        int days, numbers;
        call made;
    } questions[] = {{"check", 0, 0, check},         {"ixmake", 0, 0, index_make}, {"ixcount", 1, 1, index_count},
                     {"ixnth", 1, 1, index_nth},     {"ixadd", 1, 0, index_add},   {"ixremove", 1, 0, index_remove}};
    for (size_t i = 0; i < sizeof questions / sizeof *questions; i++) {
        if (strcmp(kind, questions[i].kind) != 0)
            continue;
        a->day = questions[i].days ? day() : 0;
        a->length = questions[i].numbers ? count() : 0;
        if (kind[0] == 'i')
            number(); /* the places */
        a->calendar = calendar();
        heronspan_index_make(a->calendar.mask, a->calendar.closed, a->calendar.count, counts, HERONSPAN_PLACES);
        print_times(questions[i].made, a);
        return 1;
    }
    return 0;
}

/* A desk's closed dates over the house's. */

static void desk_run(void *with)
{
    struct asked *a = (struct asked *)with;
    a->answer = heronspan_desk_run(a->desk.at, a->desk.count, a->house.at, a->house.count, a->day, a->list, 2);
}

static void desk_adjust(void *with)
{
    struct asked *a = (struct asked *)with;
    a->answer = heronspan_desk_adjust(a->day, a->convention, a->calendar.mask, a->desk.at, a->desk.count, a->house.at, a->house.count,
                                      moved, 1);
}

static void desk_combine(void *with)
{
    struct asked *a = (struct asked *)with;
    a->answer = heronspan_desk_combine(a->desk.at, a->desk.count, a->house.at, a->house.count, dates, a->count);
}

static int ask_desk(const char *kind, struct asked *a)
{
    int run = strcmp(kind, "deskrun") == 0, combine = strcmp(kind, "deskcombine") == 0;
    if (!run && !combine && strcmp(kind, "deskadjust") != 0)
        return 0;
    if (combine) {
        a->count = (size_t)number();
        if (a->count > PLACES)
            stop("more places than there are");
    } else {
        a->day = day(); /* of a run: its year */
    }
    if (!run && !combine) {
        a->convention = byte();
        a->calendar.mask = byte();
    }
    a->desk = dates_in(0);
    a->house = dates_in(1);
    print_times(run ? desk_run : combine ? desk_combine : desk_adjust, a);
    return 1;
}

static void say_code(int64_t n)
{
    if (n < 0)
        printf("refused %lld", -(long long)n);
    else
        printf("%c%c", (int)(n >> 8), (int)(n & 255));
}

static void say_number(int64_t n)
{
    printf(n < 0 ? "refused %lld" : "%lld", n < 0 ? -(long long)n : (long long)n);
}

/* Year fractions: bits, two parts, three sums. */
static int ask_year(const char *kind)
{
    struct asked a = {0};
    if (strcmp(kind, "yearreport") == 0) {
        a.count = (size_t)number();
        if (a.count > PLACES)
            stop("more dates than there are places");
        for (size_t i = 0; i < a.count; i++)
            dates[i] = day();
        print_times(year_report, &a);
        printf("%u %u %u", a.list[0], a.list[1], a.list[2]);
        return 1;
    }
    if (strcmp(kind, "yearfraction") && strcmp(kind, "yearparts"))
        return 0;
    a.basis = byte();
    a.day = day();
    a.end_day = day();
    if (strcmp(kind, "yearfraction") == 0) {
        print_times(year_fraction, &a);
        printf("%016llx", (unsigned long long)a.answer);
    } else {
        print_times(year_parts, &a);
        printf("%u %u", a.list[0], a.list[1]);
    }
    return 1;
}

static void ask(const char *kind)
{
    struct asked a = {0};
    if (ask_year(kind))
        return;
    if (strcmp(kind, "build") == 0) {
        a.build = read_build();
        print_times(build, &a);
        if (a.answer < 0)
            say_number(a.answer);
        else
            print_schedule(record[3], UNITS[record[5] & 3], record[4], (long)a.answer, dates, flags);
        return;
    }
    if (strcmp(kind, "coming") == 0) {
        a.day = day();
        a.build = read_build();
        print_times(coming, &a);
    } else if (strcmp(kind, "adjust") == 0) {
        a.day = day();
        a.convention = byte();
        a.calendar = calendar();
        print_times(adjust, &a);
    } else if (strcmp(kind, "advance") == 0) {
        a.day = day();
        a.unit = unit();
        a.length = count();
        a.convention = byte();
        a.monthend = byte();
        a.calendar = calendar();
        print_times(advance, &a);
    } else if (strcmp(kind, "immdate") == 0) {
        a.day = day();
        a.main_cycle = byte();
        print_times(is_imm, &a);
    } else if (strcmp(kind, "nextdate") == 0) {
        a.day = day();
        a.main_cycle = byte();
        print_times(next_imm, &a);
    } else if (strcmp(kind, "date") == 0) {
        read_code();
        a.day = day();
        print_times(imm_date, &a);
    } else if (strcmp(kind, "code") == 0) {
        a.day = day();
        print_times(imm_code, &a);
        say_code(a.answer);
        return;
    } else if (!ask_index(kind, &a) && !ask_desk(kind, &a)) {
        printf("unasked");
        return;
    }
    say_number(a.answer);
}

int main(int argc, char **argv)
{
    read_words(argc, argv);
    while (next_line()) {
        ask(word());
        putchar('\n');
    }
    return 0;
}
