/* Heronspan: dates, calendars, IMM codes and payment schedules.
 *
 * Each function answers in one number: zero or more is the value, below zero is minus the number of a refusal
 * (HERONSPAN_BOOK and the other names below). No input stops a call, and a refusal leaves what was lent as it was, but for
 * the record of a build.
 *
 * A date is a day number: 1 is 1 January of year 1, and 0 is no date. Dates that are given lie in the book, 1901-01-01
 * (693961) to 2199-12-31 (803168), those of year fractions in 1800 to 2399; where a date is due, 0 is refused with HERONSPAN_BOOK. Results lie in 1800 to 2399.
 *
 * A unit, a rule, a convention, a basis or a flag outside its list is refused with HERONSPAN_REQUEST, before all else but a lent list
 * that is too short for what is always written to it (HERONSPAN_ROOM).
 *
 * A list is a pointer and the count of its elements. A list of no elements may be a null pointer. Lists that are written to
 * overlap with no other list of the call.
 *
 * Every function is proved to do what the definition that its contract names says (crates/capi, which crates/capi_c exports). */
#ifndef HERONSPAN_H
#define HERONSPAN_H

#include <stddef.h>
#include <stdint.h>
#include <string.h>

#ifdef __cplusplus
extern "C" {
#endif

/* ---- refusals; made by tools/refusals.py: numbers */
enum {
    HERONSPAN_UNEVEN = 1,           /* the lent lists of a schedule differ in length */
    HERONSPAN_BOOK = 2,             /* a date outside the book, a result outside 1800 to 2399, or no such day */
    HERONSPAN_CALENDAR = 3,         /* all seven days closed, or the closed dates break their rule */
    HERONSPAN_NEGATIVE = 4,         /* a tenor below 0 (builds) */
    HERONSPAN_TENOR = 5,            /* a tenor over 366 days, 520 weeks, 1200 months or 100 years */
    HERONSPAN_FIRST_DATE = 6,       /* first date not after effective, or after termination */
    HERONSPAN_FIRST_NOT_IMM = 7,    /* first date no IMM date */
    HERONSPAN_FIRST_WRONG_RULE = 8, /* first date given under a rule that takes none */
    HERONSPAN_LAST_DATE = 9,        /* next-to-last date not after effective, or not before termination */
    HERONSPAN_LAST_NOT_IMM = 10,    /* next-to-last date no IMM date */
    HERONSPAN_LAST_WRONG_RULE = 11, /* next-to-last date given under a rule that takes none */
    HERONSPAN_MONTHEND = 12,        /* end of month on, and the rule is neither Zero, Backward nor Forward */
    HERONSPAN_CLOSED = 13,          /* none of the 31 days of a search is open */
    HERONSPAN_ROOM = 14,            /* a lent list is too short */
    HERONSPAN_COLLAPSED = 15,       /* the end merge leaves two dates, the second not after the first */
    HERONSPAN_CODE = 16,            /* no IMM code, or no IMM date */
    HERONSPAN_REQUEST = 17,         /* a number outside its list */
    HERONSPAN_BUFFER = 18,          /* the lent buffer is shorter than 20,000 bytes */
    HERONSPAN_NOTPLAIN = 19,        /* the coming date alone: a request that it does not answer */
    HERONSPAN_BATCH = 20,           /* a book of over 64 requests, one cut short, or too few answer places */
    HERONSPAN_INDEX = 21,           /* an index that has not 601 places */
    HERONSPAN_SAME_DATE = 22,       /* adding a date that is closed already, or removing one that is not listed */
    HERONSPAN_FULL = 23,            /* a closed date more than 4,096 */
    HERONSPAN_ICAL = 24,            /* a calendar file that breaks its rule */
    HERONSPAN_ICALKIND = 25,        /* a calendar file with a timed or recurring event */
    HERONSPAN_REVERSED = 26,        /* an end before its start */
    HERONSPAN_SHORTEND = 27         /* end of month on, a positive tenor in days or weeks, and a rule other than Zero */
};
/* ---- made so far */

/* ---- units of a tenor */
enum {
    HERONSPAN_DAYS = 0,
    HERONSPAN_WEEKS = 1,
    HERONSPAN_MONTHS = 2,
    HERONSPAN_YEARS = 3
};

/* ---- date generation rules */
enum {
    HERONSPAN_ZERO = 0,
    HERONSPAN_BACKWARD = 1,
    HERONSPAN_FORWARD = 2,
    HERONSPAN_TWENTIETH = 3,
    HERONSPAN_TWENTIETH_IMM = 4,
    HERONSPAN_THIRD_WEDNESDAY = 5,
    HERONSPAN_THIRD_WEDNESDAY_INCLUSIVE = 6,
    HERONSPAN_OLD_CDS = 7,
    HERONSPAN_CDS = 8,
    HERONSPAN_CDS2015 = 9
};

/* ---- business day conventions */
enum {
    HERONSPAN_UNADJUSTED = 0,
    HERONSPAN_FOLLOWING = 1,
    HERONSPAN_MODIFIED_FOLLOWING = 2,
    HERONSPAN_PRECEDING = 3,
    HERONSPAN_MODIFIED_PRECEDING = 4
};

/* ---- weekly closed days, Monday the lowest bit */
enum {
    HERONSPAN_NEVER_CLOSED = 0,
    HERONSPAN_WEEKENDS = 0x60
};

/* ---- the order that heronspan_compare answers */
enum {
    HERONSPAN_BEFORE = 0,
    HERONSPAN_SAME = 1,
    HERONSPAN_AFTER = 2
};

/* ---- bases of a year fraction */
enum {
    HERONSPAN_ACTUAL_360 = 0,
    HERONSPAN_ACTUAL_365_FIXED = 1,
    HERONSPAN_THIRTY_E_360 = 2
};

/* The most closed dates that a calendar takes, and the most dates that a build makes. */
#define HERONSPAN_MOST 4096

/* ---- dates */

/* The day number of a civil date. */
int64_t heronspan_make(uint32_t year, uint32_t month, uint32_t day);

/* The civil date, as year * 10000 + month * 100 + day. */
int64_t heronspan_fields(uint32_t day);

/* 1 is Monday and 7 Sunday. */
int64_t heronspan_weekday(uint32_t day);

/* The last day of the day's month. */
int64_t heronspan_month_end(uint32_t day);

/* The day moved by a count of units, on no calendar. Months keep the day, or take the last of a shorter month. */
int64_t heronspan_advance(uint32_t day, int32_t count, uint8_t unit);

/* The first day with that weekday on or after the day. */
int64_t heronspan_next_weekday(uint32_t day, uint32_t weekday);

/* The nth day with that weekday in a month. */
int64_t heronspan_nth_weekday(uint32_t nth, uint32_t weekday, uint32_t month, uint32_t year);

/* HERONSPAN_BEFORE, HERONSPAN_SAME or HERONSPAN_AFTER: where the first day lies beside the second. */
int64_t heronspan_compare(uint32_t a, uint32_t b);

/* 0, and how many days a lies after b is written to the first place of `days`. A list with no place is HERONSPAN_ROOM. */
int64_t heronspan_difference(uint32_t a, uint32_t b, int32_t *days, size_t days_len);

/* 0, and the length of `count` times the tenor is written to the first place of `out`; the unit stays. */
int64_t heronspan_times(int32_t tenor, uint8_t unit, int32_t count, int32_t *out, size_t out_len);

/* ---- calendars: a mask of weekly closed days, and closed dates, strictly ascending, at most HERONSPAN_MOST */

/* 0 where the calendar keeps its rule. */
int64_t heronspan_calendar_check(uint8_t mask, const uint32_t *closed, size_t closed_len);

/* 1 where the day is open, 0 where it is closed. */
int64_t heronspan_is_open(uint32_t day, uint8_t mask, const uint32_t *closed, size_t closed_len);

/* The day adjusted by a convention. How many days it moved, later being positive, is written to the first place of `moved`, here and in the
 * other functions with such a list. A list with no place is HERONSPAN_ROOM, before all else, and a refusal leaves it as it was. */
int64_t heronspan_adjust(uint32_t day, uint8_t convention, uint8_t mask, const uint32_t *closed, size_t closed_len, int32_t *moved,
                         size_t moved_len);

/* The last open day of the day's month, moved from the month's last day. */
int64_t heronspan_calendar_month_end(uint32_t day, uint8_t mask, const uint32_t *closed, size_t closed_len, int32_t *moved,
                                     size_t moved_len);

/* 1 where the day is the last open day of its month, or after it; else 0, as for day 0. */
int64_t heronspan_is_month_end(uint32_t day, uint8_t mask, const uint32_t *closed, size_t closed_len);

/* The day moved by the tenor: days are open days, the other units are added and adjusted. `monthend` is 0 or 1. `moved` has the days from the
 * sum, of natural days for open ones, or from its month's last day where the month end is given. */
int64_t heronspan_calendar_advance(uint32_t day, int32_t tenor, uint8_t unit, uint8_t convention, uint8_t monthend,
                                   uint8_t mask, const uint32_t *closed, size_t closed_len, int32_t *moved, size_t moved_len);

/* ---- open days by an index: HERONSPAN_PLACES running counts beside a calendar, at place i the open days from 1800-01-01 up to, and
 * without, 1 January of 1800 + i. Every other size is HERONSPAN_INDEX, after HERONSPAN_CALENDAR and before all else. The questions'
 * answers are the plain counts for an index that was made from the calendar given, or changed with it; other counts are safe, and
 * what is then answered means nothing. */
#define HERONSPAN_PLACES 601

/* 0, and the calendar's index is written to `index`. */
int64_t heronspan_index_make(uint8_t mask, const uint32_t *closed, size_t closed_len, uint32_t *index, size_t index_len);

/* How many open days lie from the first day up to, and without, the last: none if that is not later. */
int64_t heronspan_index_count(uint32_t first, uint32_t last, uint8_t mask, const uint32_t *closed, size_t closed_len,
                              const uint32_t *index, size_t index_len);

/* The n-th open day after the day, n from 1 to 366, over closed runs of any length. */
int64_t heronspan_index_nth(uint32_t day, uint32_t n, uint8_t mask, const uint32_t *closed, size_t closed_len,
                            const uint32_t *index, size_t index_len);

/* 0, and `index` is that of the calendar with one closed date more, or less, from 1800-01-01 to 2399-12-31. `closed` is the list
 * as before the change, which the caller makes in it. Adding a date that is closed already, weekly or listed, and removing one
 * that is not listed are HERONSPAN_SAME_DATE; adding to HERONSPAN_MOST dates is HERONSPAN_FULL. */
int64_t heronspan_index_add(uint32_t day, uint8_t mask, const uint32_t *closed, size_t closed_len, uint32_t *index,
                            size_t index_len);
int64_t heronspan_index_remove(uint32_t day, uint8_t mask, const uint32_t *closed, size_t closed_len, uint32_t *index,
                               size_t index_len);

/* ---- a desk's closed dates over the house's: for each year the desk's if it has any there, otherwise the house's. Each list by itself keeps
   the rule of closed dates. */

/* 0 where the run of a year is answered: both lists keep their rule (else 3), and the year lies from 1800 to 2399 (else 2). */
int64_t heronspan_desk_check(const uint32_t *desk, size_t desk_len, const uint32_t *house, size_t house_len, uint32_t year);

/* How many entries the run of a year has, 0 where neither list has one. The list that it stands in, 0 for none, 1 for the desk's, 2 for the
   house's, is written to the first place of `place`, and where the run starts in it to the second; fewer than two places are 14, before all
   else, and a refusal leaves them as they were. */
int64_t heronspan_desk_run(const uint32_t *desk, size_t desk_len, const uint32_t *house, size_t house_len, uint32_t year, uint32_t *place,
                           size_t place_len);

/* The day adjusted by a convention, each day that is tried open or closed by the run of its own year. */
int64_t heronspan_desk_adjust(uint32_t day, uint8_t convention, uint8_t mask, const uint32_t *desk, size_t desk_len, const uint32_t *house,
                              size_t house_len, int32_t *moved, size_t moved_len);

/* The two lists as one: the desk's entries, and the house's whose year has none of the desk's, ascending. It is written over the start of
   `closed`, and how many entries it has is answered; over these every function that takes closed dates answers for desk and house. 3 for
   either list, then HERONSPAN_FULL where it has more than HERONSPAN_MOST entries, then 14 where `closed` is shorter; a refusal leaves `closed`
   as it was, and places behind the entries always stay. `closed` shares no place with either list. */
int64_t heronspan_desk_combine(const uint32_t *desk, size_t desk_len, const uint32_t *house, size_t house_len, uint32_t *closed,
                               size_t closed_len);

/* ---- IMM dates and codes. `main` is 1 for the main cycle (March, June, September, December), 0 for every month. A code is a
 * letter and a digit; where one is answered, it is letter * 256 + digit, both bytes. */

/* 1 where the day is an IMM date, else 0. */
int64_t heronspan_is_imm_date(uint32_t day, uint8_t main);

/* 1 where the bytes are a code, else 0. */
int64_t heronspan_is_imm_code(const uint8_t *code, size_t code_len, uint8_t main);

/* The code of an IMM date. */
int64_t heronspan_imm_code(uint32_t day);

/* The earliest IMM date on or after the day that the code names. */
int64_t heronspan_imm_date(const uint8_t *code, size_t code_len, uint32_t day);

/* The earliest IMM date after the day. */
int64_t heronspan_next_imm_date(uint32_t day, uint8_t main);

/* The earliest IMM date after the one that the code names. */
int64_t heronspan_next_imm_date_with_code(const uint8_t *code, size_t code_len, uint8_t main, uint32_t day);

/* The codes of these two. */
int64_t heronspan_next_imm_code(uint32_t day, uint8_t main);
int64_t heronspan_next_imm_code_with_code(const uint8_t *code, size_t code_len, uint8_t main, uint32_t day);

/* ---- twentieths. For the rules of IMM months (TwentiethIMM, OldCDS, CDS, CDS2015) those of March, June, September and
 * December; for every other rule those of every month. */

/* The first twentieth on or after the day. */
int64_t heronspan_next_twentieth(uint32_t day, uint8_t rule);

/* The last twentieth on or before the day. */
int64_t heronspan_previous_twentieth(uint32_t day, uint8_t rule);

/* ---- schedules */

/* Places of a build's record. */
enum {
    HERONSPAN_NUMBER = 0, /* the refusal's number, or 0 */
    HERONSPAN_COUNT = 1,  /* how many dates */
    HERONSPAN_TRIES = 2,  /* how many candidates were tried */
    HERONSPAN_RULE = 3,   /* the rule in force */
    HERONSPAN_SIZE = 4,   /* the length of the tenor in force */
    HERONSPAN_UNIT = 5,   /* and its unit */
    HERONSPAN_MOVED = 6,  /* the greatest number of days between a paid date and its unadjusted one */
    HERONSPAN_RECORD = 7  /* how many places there are */
};

/* Builds a schedule and answers how many dates it has. They are written to the start of `dates`, as paid; one fewer flags, each 1
 * where the period that ends at the next date is regular, to the start of `flags`; and for each paid date the one that it was
 * before adjustment to the same place of `unadjusted`. The three lists are equally long, else HERONSPAN_UNEVEN, and later places
 * keep what they held. `terminal` is the convention of the last date. An anchor (`first`, `penultimate`) of 0 is no anchor.
 *
 * `answer` has at least HERONSPAN_RECORD places, else HERONSPAN_ROOM is answered, before every other refusal, and nothing is
 * written. The record of the build is written to its start; of a refused one it is the number, then zeros. */
int64_t heronspan_build(uint32_t effective, uint32_t termination, int32_t tenor, uint8_t unit, uint8_t rule,
                        uint8_t convention, uint8_t terminal, uint8_t monthend, uint32_t first, uint32_t penultimate,
                        uint8_t mask, const uint32_t *closed, size_t closed_len, uint32_t *dates, size_t dates_len,
                        uint8_t *flags, size_t flags_len, uint32_t *unadjusted, size_t unadjusted_len, uint32_t *answer,
                        size_t answer_len);

/* The same from the bytes of a request, as document 01 lays them out; bytes that are no request are HERONSPAN_REQUEST. */
int64_t heronspan_build_bytes(const uint8_t *bytes, size_t bytes_len, uint32_t *dates, size_t dates_len, uint8_t *flags,
                              size_t flags_len, uint32_t *unadjusted, size_t unadjusted_len, uint32_t *answer,
                              size_t answer_len);

/* Places of a request's answer in a book. */
enum {
    HERONSPAN_BOOK_COUNT = 0,  /* how many dates */
    HERONSPAN_BOOK_START = 1,  /* the place of the first, from 0, in all three lists */
    HERONSPAN_BOOK_TRIES = 2,  /* how many candidates were tried */
    HERONSPAN_BOOK_NUMBER = 3, /* the refusal's number, or 0; the other three are 0 where it is refused */
    HERONSPAN_BOOK_ANSWER = 4  /* how many places there are */
};

/* Builds a night's book: up to 64 requests to the very end of the bytes, each led by its length in two bytes, high byte first, which
 * does not count itself. Answers how many requests there were. Each is built as heronspan_build_bytes builds it, in the room then left,
 * and its schedule stands right behind the one before it, at one start in all three lists; the flag place of a schedule's last date
 * keeps what it held. A refused request takes no room and stops nothing. `answers` has HERONSPAN_BOOK_ANSWER places for each request.
 *
 * Lists of dates, flags and unadjusted dates that are not equally long are HERONSPAN_UNEVEN; then more than 64 requests, a length or a
 * body cut short, or too few places in `answers` are HERONSPAN_BATCH. Both leave every list as it was; else later places keep what
 * they held. */
int64_t heronspan_book(const uint8_t *bytes, size_t bytes_len, uint32_t *dates, size_t dates_len, uint8_t *flags,
                       size_t flags_len, uint32_t *unadjusted, size_t unadjusted_len, uint32_t *answers,
                       size_t answers_len);

/* What heronspan_coming answers: 0 where there is no later date, else the day times 4 and one of these marks of the period that
 * ends there; HERONSPAN_DAY and HERONSPAN_MARK take the two apart. */
enum {
    HERONSPAN_IRREGULAR = 0,
    HERONSPAN_REGULAR = 1,
    HERONSPAN_NO_PERIOD = 2 /* the effective date, which ends no period */
};
#define HERONSPAN_DAY(answer) ((uint32_t)((answer) / 4))
#define HERONSPAN_MARK(answer) ((int)((answer) % 4))

/* The first date after the day `asked` of the schedule that heronspan_build gives with no limit of room, without making it: its
 * cost does not grow with the schedule. It answers requests that are Backward or Forward, with a tenor above 0, no anchors, both
 * conventions Unadjusted, end of month off and effective before termination, told by their fields alone; others are
 * HERONSPAN_NOTPLAIN, after BOOK (of `asked` too), CALENDAR, NEGATIVE and TENOR. */
int64_t heronspan_coming(uint32_t effective, uint32_t termination, int32_t tenor, uint8_t unit, uint8_t rule,
                         uint8_t convention, uint8_t terminal, uint8_t monthend, uint32_t first, uint32_t penultimate,
                         uint8_t mask, const uint32_t *closed, size_t closed_len, uint32_t asked);

/* ---- year fractions of a period, by its paid dates. These lie from 1800 to 2399, in the book or not; others are HERONSPAN_BOOK, and
 * a period that ends before it starts is HERONSPAN_REVERSED. Equal dates give zero. 30E/360 is that of the 2006 ISDA Definitions. */

/* The fraction of a year from start to end, as the bits of a double, which are zero or more since no fraction is negative;
 * heronspan_double makes the double. It is the numerator over the denominator, rounded once. */
int64_t heronspan_year_fraction(uint8_t basis, uint32_t start, uint32_t end);

/* 0, and the numerator and the denominator, not reduced, are written to the first two places of `parts`. Fewer places are
 * HERONSPAN_ROOM. */
int64_t heronspan_year_parts(uint8_t basis, uint32_t start, uint32_t end, uint32_t *parts, size_t parts_len);

/* 0, and the sums of the numerators over the periods between neighbours of a list of dates are written to the first three places
 * of `sums`, in the order of the bases. Fewer places are HERONSPAN_ROOM; a date outside 1800 to 2399 anywhere comes before a date
 * that lies before its neighbour anywhere. No date or one has sums 0. */
int64_t heronspan_year_report(const uint32_t *dates, size_t dates_len, uint32_t *sums, size_t sums_len);

/* ---- requests off the wire */

/* A reader that is fed the bytes of a request one part at a time, in any cuts, empty parts too. What it stands at between two calls
 * is its own; the numbers of a request that a finish found stand in `request`. heronspan_reset makes it a new one. */
typedef struct heronspan_reader {
    uint16_t state[20];
    uint32_t request[13];
} heronspan_reader;

/* Places of a request's numbers; they are those that heronspan_build takes. */
enum {
    HERONSPAN_ASKED_EFFECTIVE = 0,
    HERONSPAN_ASKED_TERMINATION = 1,
    HERONSPAN_ASKED_SIZE = 2, /* of the tenor's length */
    HERONSPAN_ASKED_BACK = 3, /* 1 where that length is below 0 */
    HERONSPAN_ASKED_UNIT = 4,
    HERONSPAN_ASKED_RULE = 5,
    HERONSPAN_ASKED_CONVENTION = 6,
    HERONSPAN_ASKED_TERMINAL = 7,
    HERONSPAN_ASKED_MONTHEND = 8,
    HERONSPAN_ASKED_FIRST = 9,
    HERONSPAN_ASKED_PENULTIMATE = 10,
    HERONSPAN_ASKED_MASK = 11,
    HERONSPAN_ASKED_CLOSED = 12 /* how many closed dates stand in the lent list */
};

/* The bytes that a reader's buffer has at least. */
#define HERONSPAN_WIRE 20000

/* Makes the reader a new one, whatever it was. Answers 0. */
int64_t heronspan_reset(heronspan_reader *reader);

/* Takes in a part and answers 0, to go on. Each byte of a body goes to its place in the buffer: the bodies lie back to back at its
 * start, framed by their lengths alone until the field FF has ended or 20,000 bytes were fed, and other places keep what they held. A
 * buffer of fewer than HERONSPAN_WIRE bytes is HERONSPAN_BUFFER, before all else; nothing was taken and nothing changes. Once the request
 * was declared finished, the part is not read and the finish's answer is repeated, until a reset. */
int64_t heronspan_feed(heronspan_reader *reader, const uint8_t *part, size_t part_len, uint8_t *buffer, size_t buffer_len,
                       uint32_t *closed, size_t closed_len);

/* Declares the request finished: 1 where all that was fed since the reset is a request, and its numbers stand in the reader, its
 * closed dates at the start of `closed`. Bytes that are none are HERONSPAN_REQUEST; a list too short for the closed dates is
 * HERONSPAN_ROOM, and a later call with a longer one gets them. The buffer is the one that was fed, untouched by others. */
int64_t heronspan_finish(heronspan_reader *reader, const uint8_t *buffer, size_t buffer_len, uint32_t *closed,
                         size_t closed_len);

/* ---- closed dates from and to calendar files (iCalendar, RFC 5545) */

/* The most bytes that a calendar file has. */
#define HERONSPAN_FILE 65536

/* The days of the file's all-day events, each once, ascending: they stand at the start of `days`, later places keep what they held, and
 * how many they are is answered. The list passes heronspan_calendar_check with every mask that leaves a weekday open. A file that is
 * empty, over HERONSPAN_FILE bytes or against the rules is HERONSPAN_ICAL, a timed or recurring event HERONSPAN_ICALKIND, a day outside 1800 to
 * 2399 HERONSPAN_BOOK, a day too many HERONSPAN_ROOM, or HERONSPAN_FULL where HERONSPAN_MOST places and more were lent: the first in file
 * order. The first place of `line` is always written: the number of the line that is refused, 0 where none is or where it is the
 * whole file. No place for it is HERONSPAN_ROOM before all else. */
int64_t heronspan_holidays_import(const uint8_t *file, size_t file_len, uint32_t *days, size_t days_len, uint32_t *line,
                                  size_t line_len);

/* The closed dates as such a file, an event for each run of days: its bytes stand at the start of `file`, and how many they are is
 * answered. Imported, it gives the list back. A list that breaks the calendar's rule is HERONSPAN_CALENDAR, one of more than 495 runs,
 * whose file the import would not take, HERONSPAN_ICAL, and too few places HERONSPAN_ROOM. */
int64_t heronspan_holidays_export(const uint32_t *closed, size_t closed_len, uint8_t *file, size_t file_len);

/* ---- names */

/* The most bytes that the name of a refusal has. */
#define HERONSPAN_NAME 16

/* Writes the name of the refusal that an answer below zero gives, BOOK for one, to the start of `text` in ASCII, with no zero
 * behind it, and answers how many bytes it has; later places keep what they held. Every other answer has the empty name, and
 * 0 is answered. A list that the name does not fit is HERONSPAN_ROOM, and nothing is written. */
int64_t heronspan_refusal_text(int64_t answer, uint8_t *text, size_t text_len);

#ifdef __cplusplus
}
#endif

/* The double that an answer of heronspan_year_fraction is; a refusal gives no number (NaN). It is not proved. */
static inline double heronspan_double(int64_t answer) {
    double value;
    memcpy(&value, &answer, sizeof value);
    return value;
}

/* What heronspan_refusal_text writes, as a string; it is not proved. */
static inline const char *heronspan_refusal_name(int64_t answer) {
    switch (answer) {
    /* made by tools/refusals.py: names */
    case -HERONSPAN_UNEVEN:
        return "UNEVEN";
    case -HERONSPAN_BOOK:
        return "BOOK";
    case -HERONSPAN_CALENDAR:
        return "CALENDAR";
    case -HERONSPAN_NEGATIVE:
        return "NEGATIVE";
    case -HERONSPAN_TENOR:
        return "TENOR";
    case -HERONSPAN_FIRST_DATE:
        return "FIRST_DATE";
    case -HERONSPAN_FIRST_NOT_IMM:
        return "FIRST_NOT_IMM";
    case -HERONSPAN_FIRST_WRONG_RULE:
        return "FIRST_WRONG_RULE";
    case -HERONSPAN_LAST_DATE:
        return "LAST_DATE";
    case -HERONSPAN_LAST_NOT_IMM:
        return "LAST_NOT_IMM";
    case -HERONSPAN_LAST_WRONG_RULE:
        return "LAST_WRONG_RULE";
    case -HERONSPAN_MONTHEND:
        return "MONTHEND";
    case -HERONSPAN_CLOSED:
        return "CLOSED";
    case -HERONSPAN_ROOM:
        return "ROOM";
    case -HERONSPAN_COLLAPSED:
        return "COLLAPSED";
    case -HERONSPAN_CODE:
        return "CODE";
    case -HERONSPAN_REQUEST:
        return "REQUEST";
    case -HERONSPAN_BUFFER:
        return "BUFFER";
    case -HERONSPAN_NOTPLAIN:
        return "NOTPLAIN";
    case -HERONSPAN_BATCH:
        return "BATCH";
    case -HERONSPAN_INDEX:
        return "INDEX";
    case -HERONSPAN_SAME_DATE:
        return "SAME";
    case -HERONSPAN_FULL:
        return "FULL";
    case -HERONSPAN_ICAL:
        return "ICAL";
    case -HERONSPAN_ICALKIND:
        return "ICALKIND";
    case -HERONSPAN_REVERSED:
        return "REVERSED";
    case -HERONSPAN_SHORTEND:
        return "SHORTEND";
    /* made so far */
    default:
        return "";
    }
}

#endif
