/* Faults planted between the questions and the library, one to a program, to see that oracle/compare.py notices. Linked
   with --wrap, so that the calls of ours.c come here first. */
#include "../../include/heronspan.h"

#if defined FAULT_BUILD || defined FAULT_LIST || defined FAULT_COPY || defined FAULT_ENDS || defined FAULT_LATER || \
    defined FAULT_EVEN
int64_t __real_heronspan_build(uint32_t, uint32_t, int32_t, uint8_t, uint8_t, uint8_t, uint8_t, uint8_t, uint32_t,
                               uint32_t, uint8_t, const uint32_t *, size_t, uint32_t *, size_t, uint8_t *, size_t,
                               uint32_t *, size_t, uint32_t *, size_t);
int64_t __wrap_heronspan_build(uint32_t effective, uint32_t termination, int32_t tenor, uint8_t unit, uint8_t rule,
                               uint8_t convention, uint8_t terminal, uint8_t monthend, uint32_t first,
                               uint32_t penultimate, uint8_t mask, const uint32_t *closed, size_t count,
                               uint32_t *dates, size_t dates_places, uint8_t *flags, size_t flags_places,
                               uint32_t *unadjusted, size_t unadjusted_places, uint32_t *answer, size_t answer_places)
{
#ifdef FAULT_EVEN
    /* Refusal 1 looks at two of the lists alone. */
    if (dates_places == flags_places && unadjusted_places > dates_places)
        unadjusted_places = dates_places;
#endif
    int64_t n = __real_heronspan_build(effective, termination, tenor, unit, rule, convention, terminal, monthend, first,
                                       penultimate, mask, closed, count, dates, dates_places, flags, flags_places,
                                       unadjusted, unadjusted_places, answer, answer_places);
#if defined FAULT_BUILD
    /* One try too many where a next-to-last date is given. */
    if (n > 0 && penultimate)
        answer[2]++;
#elif defined FAULT_LIST
    /* A flag too many where there is room. */
    if (n > 0 && (size_t)n < flags_places)
        flags[n - 1] = 0;
#elif defined FAULT_COPY
    /* A date that was moved by a week or more is taken for one that was not. */
    for (int64_t i = 0; i < n; i++)
        if (dates[i] >= unadjusted[i] + 7 || unadjusted[i] >= dates[i] + 7)
            unadjusted[i] = dates[i];
#elif defined FAULT_ENDS
    /* Termination stands for the last date, also where a rule ends on another. */
    if (n > 1)
        unadjusted[n - 1] = termination;
#elif defined FAULT_LATER
    /* The place behind the last unadjusted date is cleared. */
    if (n > 0 && (size_t)n < unadjusted_places)
        unadjusted[n] = 0;
#endif
    return n;
}
#elif defined FAULT_CALENDAR
/* Modified Following from the last day of a month of 31 days leaves the month. */
int64_t __real_heronspan_adjust(uint32_t, uint8_t, uint8_t, const uint32_t *, size_t, int32_t *, size_t);
int64_t __wrap_heronspan_adjust(uint32_t day, uint8_t convention, uint8_t mask, const uint32_t *closed, size_t count, int32_t *moved,
                                size_t places)
{
    if (convention == 2 && heronspan_fields(day) % 100 == 31)
        convention = 1;
    return __real_heronspan_adjust(day, convention, mask, closed, count, moved, places);
}
#elif defined FAULT_IMM
/* The next IMM date of the main cycle may be the day itself. */
int64_t __real_heronspan_next_imm_date(uint32_t, uint8_t);
int64_t __wrap_heronspan_next_imm_date(uint32_t day, uint8_t main)
{
    return main == 1 && heronspan_is_imm_date(day, 1) == 1 ? (int64_t)day : __real_heronspan_next_imm_date(day, main);
}
#elif defined FAULT_COMING
/* A period that ends on the last day of a month of 30 days is regular. */
int64_t __real_heronspan_coming(uint32_t, uint32_t, int32_t, uint8_t, uint8_t, uint8_t, uint8_t, uint8_t, uint32_t,
                                uint32_t, uint8_t, const uint32_t *, size_t, uint32_t);
int64_t __wrap_heronspan_coming(uint32_t effective, uint32_t termination, int32_t tenor, uint8_t unit, uint8_t rule,
                                uint8_t convention, uint8_t terminal, uint8_t monthend, uint32_t first,
                                uint32_t penultimate, uint8_t mask, const uint32_t *closed, size_t count, uint32_t asked)
{
    int64_t n = __real_heronspan_coming(effective, termination, tenor, unit, rule, convention, terminal, monthend, first,
                                        penultimate, mask, closed, count, asked);
    return n > 0 && n % 4 == HERONSPAN_IRREGULAR && heronspan_fields(HERONSPAN_DAY(n)) % 100 == 30 ? n + 1 : n;
}
#elif defined FAULT_YEAR
/* 30E/360 leaves the 31st as it is at the end of a period. */
int64_t __real_heronspan_year_parts(uint8_t, uint32_t, uint32_t, uint32_t *, size_t);
int64_t __wrap_heronspan_year_parts(uint8_t basis, uint32_t start, uint32_t end, uint32_t *parts, size_t count)
{
    int64_t n = __real_heronspan_year_parts(basis, start, end, parts, count);
    if (n == 0 && basis == HERONSPAN_THIRTY_E_360 && heronspan_fields(end) % 100 == 31)
        parts[0]++;
    return n;
}
#elif defined FAULT_COMBINE
/* A combined list of too many entries is refused for its room. */
int64_t __real_heronspan_desk_combine(const uint32_t *, size_t, const uint32_t *, size_t, uint32_t *, size_t);
int64_t __wrap_heronspan_desk_combine(const uint32_t *desk, size_t desk_count, const uint32_t *house, size_t house_count,
                                      uint32_t *closed, size_t places)
{
    int64_t n = __real_heronspan_desk_combine(desk, desk_count, house, house_count, closed, places);
    return n == -HERONSPAN_FULL ? -HERONSPAN_ROOM : n;
}
#endif
