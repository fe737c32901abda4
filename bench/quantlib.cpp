// (c) QuantLib.
#include <memory>
#include <ql/time/calendars/bespokecalendar.hpp>
#include <ql/time/calendars/nullcalendar.hpp>
#include <ql/time/daycounters/actual360.hpp>
#include <ql/time/daycounters/actual365fixed.hpp>
#include <ql/time/daycounters/thirty360.hpp>
#include <ql/time/imm.hpp>
#include <ql/time/schedule.hpp>
#include <string>
#include "timing.h"

namespace ql = QuantLib;

// Day 367 of QuantLib is 1901-01-01, day 693,961 here.
static const int OFFSET = 693961 - 367;

static ql::Date of_day(uint32_t number)
{
    return number ? ql::Date(static_cast<ql::Date::serial_type>(number) - OFFSET) : ql::Date();
}

static uint32_t number_of(const ql::Date &date)
{
    return static_cast<uint32_t>(date.serialNumber() + OFFSET);
}

static ql::Calendar of_calendar(const struct calendar &given)
{
    if (given.mask == 0 && given.count == 0)
        return ql::NullCalendar();
    static const ql::Weekday weekdays[] = {ql::Monday, ql::Tuesday, ql::Wednesday, ql::Thursday,
                                           ql::Friday, ql::Saturday, ql::Sunday};
    ql::BespokeCalendar made("bench");
    for (int i = 0; i < 7; i++)
        if (given.mask >> i & 1)
            made.addWeekend(weekdays[i]);
    for (size_t i = 0; i < given.count; i++)
        made.addHoliday(of_day(given.closed[i]));
    return made;
}

static const ql::BusinessDayConvention CONVENTIONS[] = {ql::Unadjusted, ql::Following, ql::ModifiedFollowing,
                                                        ql::Preceding, ql::ModifiedPreceding};
static const ql::DateGeneration::Rule RULES[] = {
    ql::DateGeneration::Zero,         ql::DateGeneration::Backward,       ql::DateGeneration::Forward,
    ql::DateGeneration::Twentieth,    ql::DateGeneration::TwentiethIMM,   ql::DateGeneration::ThirdWednesday,
    ql::DateGeneration::ThirdWednesdayInclusive, ql::DateGeneration::OldCDS, ql::DateGeneration::CDS,
    ql::DateGeneration::CDS2015};
static const ql::TimeUnit UNITS_OF[] = {ql::Days, ql::Weeks, ql::Months, ql::Years};

struct asked {
    ql::Date effective, termination, first, penultimate, day;
    ql::Period tenor;
    ql::Calendar calendar;
    ql::BusinessDayConvention convention, terminal;
    ql::DateGeneration::Rule rule;
    bool monthend, main_cycle, yes;
    ql::Date::serial_type days;
    std::string code;
    std::unique_ptr<ql::Schedule> schedule;
};

static asked *of(void *with)
{
    return static_cast<asked *>(with);
}

static void build(void *with)
{
    asked *a = of(with);
    a->schedule.reset(new ql::Schedule(a->effective, a->termination, a->tenor, a->calendar, a->convention, a->terminal,
                                       a->rule, a->monthend, a->first, a->penultimate));
}

static void adjust(void *with)
{
    asked *a = of(with);
    a->effective = a->calendar.adjust(a->day, a->convention);
}

static void advance(void *with)
{
    asked *a = of(with);
    a->effective = a->calendar.advance(a->day, a->tenor, a->convention, a->monthend);
}

static void is_imm(void *with)
{
    asked *a = of(with);
    a->yes = ql::IMM::isIMMdate(a->day, a->main_cycle);
}

static void next_imm(void *with)
{
    asked *a = of(with);
    a->effective = ql::IMM::nextDate(a->day, a->main_cycle);
}

static void imm_date(void *with)
{
    asked *a = of(with);
    a->effective = ql::IMM::date(a->code, a->day);
}

static void imm_code(void *with)
{
    asked *a = of(with);
    a->code = ql::IMM::code(a->day);
}

struct period {
    ql::DayCounter basis;
    ql::Date start, end;
    double fraction;
    ql::Date::serial_type days;
};

static void year_fraction(void *with)
{
    period *p = static_cast<period *>(with);
    p->fraction = p->basis.yearFraction(p->start, p->end);
}

static void day_count(void *with)
{
    period *p = static_cast<period *>(with);
    p->days = p->basis.dayCount(p->start, p->end);
}

static void ask_year(bool fraction)
{
    static const ql::DayCounter BASES[] = {ql::Actual360(), ql::Actual365Fixed(), ql::Thirty360(ql::Thirty360::European)};
    uint8_t basis = byte();
    period p;
    p.basis = BASES[basis];
    p.start = of_day(day());
    p.end = of_day(day());
    if (fraction) {
        print_times(year_fraction, &p);
        uint64_t bits;
        memcpy(&bits, &p.fraction, sizeof bits);
        printf("%016llx", static_cast<unsigned long long>(bits));
    } else {
        print_times(day_count, &p);
        printf("%ld %d", static_cast<long>(p.days), basis == 1 ? 365 : 360);
    }
}

static void days_between(void *with)
{
    asked *a = of(with);
    a->days = a->calendar.businessDaysBetween(a->first, a->day, true, false);
}

static void ask_build(asked &a)
{
    struct build b = read_build();
    a.effective = of_day(b.effective);
    a.termination = of_day(b.termination);
    a.tenor = ql::Period(b.tenor, UNITS_OF[b.unit]);
    a.rule = RULES[b.rule];
    a.convention = CONVENTIONS[b.convention];
    a.terminal = CONVENTIONS[b.terminal];
    a.monthend = b.monthend;
    a.first = of_day(b.first);
    a.penultimate = of_day(b.penultimate);
    a.calendar = of_calendar(b.calendar);
    print_times(build, &a);
    std::vector<uint32_t> dates;
    std::vector<uint8_t> flags;
    for (const ql::Date &date : a.schedule->dates())
        dates.push_back(number_of(date));
    for (bool regular : a.schedule->isRegular())
        flags.push_back(regular);
    print_schedule(b.rule, UNITS[b.unit], static_cast<unsigned>(b.tenor), static_cast<long>(dates.size()), dates.data(),
                   flags.data());
}

static void ask(const std::string &kind)
{
    asked a;
    if (kind == "build") {
        ask_build(a);
    } else if (kind == "yearfraction" || kind == "yearparts") {
        ask_year(kind == "yearfraction");
    } else if (kind == "adjust") {
        a.day = of_day(day());
        a.convention = CONVENTIONS[byte()];
        a.calendar = of_calendar(calendar());
        print_times(adjust, &a);
        printf("%u", number_of(a.effective));
    } else if (kind == "advance") {
        a.day = of_day(day());
        uint8_t u = unit();
        a.tenor = ql::Period(count(), UNITS_OF[u]);
        a.convention = CONVENTIONS[byte()];
        a.monthend = byte();
        a.calendar = of_calendar(calendar());
        print_times(advance, &a);
        printf("%u", number_of(a.effective));
    } else if (kind == "immdate") {
        a.day = of_day(day());
        a.main_cycle = byte();
        print_times(is_imm, &a);
        printf("%d", a.yes);
    } else if (kind == "nextdate") {
        a.day = of_day(day());
        a.main_cycle = byte();
        print_times(next_imm, &a);
        printf("%u", number_of(a.effective));
    } else if (kind == "date") {
        read_code();
        a.code = std::string(reinterpret_cast<char *>(code), code_length);
        a.day = of_day(day());
        print_times(imm_date, &a);
        printf("%u", number_of(a.effective));
    } else if (kind == "code") {
        a.day = of_day(day());
        print_times(imm_code, &a);
        printf("%s", a.code.c_str());
    } else if (kind == "ixcount") {
        a.first = of_day(day());
        a.day = of_day(day());
        number(); // the places
        a.calendar = of_calendar(calendar());
        print_times(days_between, &a);
        printf("%ld", static_cast<long>(a.days));
    } else {
        printf("unasked");
    }
}

int main(int argc, char **argv)
{
    read_words(argc, argv);
    while (next_line()) {
        try {
            ask(word());
        } catch (const std::exception &error) {
            fprintf(stderr, "quantlib: %s\n", error.what());
            printf("error");
        }
        putchar('\n');
    }
    return 0;
}
