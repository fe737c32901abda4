/* Builds a quarterly schedule and prints it, with the date before adjustment in brackets where it was another, then shows
 * refusals: by name, and of a missing date. Ends with 1 where the header and the library name an answer differently. */
#include <inttypes.h>
#include <stdio.h>
#include <string.h>

#include "heronspan.h"

static void print_day(uint32_t day) {
    int64_t fields = heronspan_fields(day);
    printf("%04d-%02d-%02d", (int)(fields / 10000), (int)(fields / 100 % 100), (int)(fields % 100));
}

static void print_refusal(const char *what, int64_t answer) {
    printf("%s: refused %" PRId64 " %s\n", what, -answer, heronspan_refusal_name(answer));
}

/* Whether the header and the library have the same name for each answer from -256 to 256. */
static int same_names(void) {
    for (int64_t answer = -256; answer <= 256; answer++) {
        uint8_t text[HERONSPAN_NAME];
        const char *name = heronspan_refusal_name(answer);
        int64_t length = heronspan_refusal_text(answer, text, sizeof text);
        if (length != (int64_t)strlen(name) || memcmp(text, name, strlen(name)) != 0)
            return 0;
    }
    return 1;
}

int main(void) {
    uint32_t dates[16], unadjusted[16], answer[HERONSPAN_RECORD];
    uint8_t flags[16];
    uint32_t effective = (uint32_t)heronspan_make(2025, 1, 15);
    uint32_t termination = (uint32_t)heronspan_make(2025, 12, 20);

    /* Every three months back from the end, weekends closed, moved to the following open day. */
    int64_t count = heronspan_build(effective, termination, 3, HERONSPAN_MONTHS, HERONSPAN_BACKWARD, HERONSPAN_FOLLOWING,
                                    HERONSPAN_FOLLOWING, 0, 0, 0, HERONSPAN_WEEKENDS, NULL, 0, dates, 16, flags, 16,
                                    unadjusted, 16, answer, HERONSPAN_RECORD);
    if (count < 0) {
        print_refusal("build", count);
        return 1;
    }
    printf("%" PRId64 " dates, %" PRIu32 " tries, moved by %" PRIu32 " days at most\n", count, answer[HERONSPAN_TRIES],
           answer[HERONSPAN_MOVED]);
    for (int64_t i = 0; i < count; i++) {
        print_day(dates[i]);
        printf("%s", i == 0 ? "" : flags[i - 1] ? " R" : " S");
        if (unadjusted[i] != dates[i]) {
            printf(" (");
            print_day(unadjusted[i]);
            printf(")");
        }
        printf("\n");
    }

    /* The same with room for four dates. */
    count = heronspan_build(effective, termination, 3, HERONSPAN_MONTHS, HERONSPAN_BACKWARD, HERONSPAN_FOLLOWING,
                            HERONSPAN_FOLLOWING, 0, 0, 0, HERONSPAN_WEEKENDS, NULL, 0, dates, 4, flags, 4, unadjusted, 4,
                            answer, HERONSPAN_RECORD);
    print_refusal("four places", count);

    /* With lists of two lengths, before all else. */
    count = heronspan_build(effective, termination, 3, HERONSPAN_MONTHS, HERONSPAN_BACKWARD, HERONSPAN_FOLLOWING,
                            HERONSPAN_FOLLOWING, 0, 0, 0, HERONSPAN_WEEKENDS, NULL, 0, dates, 4, flags, 4, unadjusted, 5,
                            answer, HERONSPAN_RECORD);
    print_refusal("a longer third list", count);

    /* The coming date of an unadjusted schedule, without the schedule. */
    int64_t coming = heronspan_coming(effective, termination, 3, HERONSPAN_MONTHS, HERONSPAN_BACKWARD, HERONSPAN_UNADJUSTED,
                                      HERONSPAN_UNADJUSTED, 0, 0, 0, HERONSPAN_NEVER_CLOSED, NULL, 0, effective);
    printf("coming: ");
    print_day(HERONSPAN_DAY(coming));
    printf("%s\n", HERONSPAN_MARK(coming) == HERONSPAN_REGULAR ? " R" : " S");

    /* The year fraction of the first quarter, its two numbers, and the sums over the paid dates of the build. */
    uint32_t parts[2], sums[3];
    double quarter = heronspan_double(heronspan_year_fraction(HERONSPAN_ACTUAL_360, dates[0], dates[1]));
    heronspan_year_parts(HERONSPAN_ACTUAL_360, dates[0], dates[1], parts, 2);
    printf("fraction: %" PRIu32 "/%" PRIu32 "%s\n", parts[0], parts[1], quarter == 64.0 / 360.0 ? "" : ", and another float");
    heronspan_year_report(dates, 5, sums, 3);
    printf("sums: %" PRIu32 " %" PRIu32 " %" PRIu32 "\n", sums[0], sums[1], sums[2]);
    print_refusal("reversed", heronspan_year_fraction(HERONSPAN_THIRTY_E_360, dates[1], dates[0]));

    /* A request that comes in two parts. */
    static const uint8_t bytes[] = {1, 0, 4, 0, 11, 67, 108, 2, 0, 4, 0, 11, 68, 3, 255, 0, 0};
    static uint8_t wire[HERONSPAN_WIRE];
    static uint32_t closed[HERONSPAN_MOST];
    heronspan_reader reader;
    heronspan_reset(&reader);
    heronspan_feed(&reader, bytes, 9, wire, sizeof wire, closed, HERONSPAN_MOST);
    heronspan_feed(&reader, bytes + 9, sizeof bytes - 9, wire, sizeof wire, closed, HERONSPAN_MOST);
    if (heronspan_finish(&reader, wire, sizeof wire, closed, HERONSPAN_MOST) != 1)
        return 1;
    printf("in parts: ");
    print_day(reader.request[HERONSPAN_ASKED_EFFECTIVE]);
    printf("\n");

    /* A desk's closed date over the house's four, as one list: the house's of 2026 stay, its of 2025 do not. */
    uint32_t christmas = (uint32_t)heronspan_make(2025, 12, 25), new_year = (uint32_t)heronspan_make(2026, 1, 1);
    uint32_t house[] = {christmas, christmas + 1, new_year, new_year + 1};
    int64_t both = heronspan_desk_combine(&christmas, 1, house, 4, closed, HERONSPAN_MOST);
    printf("desk and house:");
    for (int64_t i = 0; i < both; i++) {
        printf(" ");
        print_day(closed[i]);
    }
    printf("\n");
    print_refusal("two places", heronspan_desk_combine(&christmas, 1, house, 4, closed, 2));

    /* The first of May from a calendar file, and its file again; then a line that is refused. */
    static const char may[] = "BEGIN:VCALENDAR\nBEGIN:VEVENT\nDTSTART;VALUE=DATE:20250501\nEND:VEVENT\nEND:VCALENDAR\n";
    static const char timed[] = "BEGIN:VCALENDAR\nBEGIN:VEVENT\nDTSTART:20250501T090000Z\n";
    static uint8_t file[HERONSPAN_FILE];
    uint32_t line[1];
    int64_t read = heronspan_holidays_import((const uint8_t *)may, sizeof may - 1, closed, HERONSPAN_MOST, line, 1);
    printf("holidays: %" PRId64 ", ", read);
    print_day(closed[0]);
    printf(", a file of %" PRId64 " bytes\n", heronspan_holidays_export(closed, 1, file, sizeof file));
    read = heronspan_holidays_import((const uint8_t *)timed, sizeof timed - 1, closed, HERONSPAN_MOST, line, 1);
    printf("line %" PRIu32 ", ", line[0]);
    print_refusal("timed", read);

    /* A book of two requests, one date and two, in room for three: the first is refused, as its last byte is missing. */
    static const uint8_t night[] = {0,  22, 1,  0,   4, 0, 11, 71, 239, 2,  0,  4, 0, 11, 71, 239, 3,  0,   3, 77, 0,   1,  255, 0,
                                    0,  27, 1,  0,   4, 0, 11, 72, 99,  2,  0,  4, 0, 11, 72, 105, 3,  0,   3, 77, 0,   3,  4,   0,
                                    1,  3,  255, 0,  0};
    uint32_t answers[2 * HERONSPAN_BOOK_ANSWER];
    int64_t booked = heronspan_book(night, sizeof night, dates, 3, flags, 3, unadjusted, 3, answers, 8);
    printf("book: %" PRId64 ", refused %" PRIu32 ", %" PRIu32 " dates from place %" PRIu32 ", the last ", booked,
           answers[HERONSPAN_BOOK_NUMBER], answers[HERONSPAN_BOOK_ANSWER + HERONSPAN_BOOK_COUNT],
           answers[HERONSPAN_BOOK_ANSWER + HERONSPAN_BOOK_START]);
    print_day(dates[1]);
    printf("\n");
    print_refusal("one answer's places", heronspan_book(night, sizeof night, dates, 3, flags, 3, unadjusted, 3, answers, 7));

    /* 0 is no date: it is neither before nor after the real ones. */
    print_refusal("a missing date", heronspan_compare(0, effective));
    return same_names() ? 0 : 1;
}
