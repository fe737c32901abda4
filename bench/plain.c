/* (d) The common case as one would write it in C: Backward without anchors or end of month, nothing checked, straight
   into the lent lists. A limit to measure by. */
#include "timing.h"

enum { PLACES = 4096, BACKWARD = 1 };
enum { UNADJUSTED, FOLLOWING, MODIFIED_FOLLOWING, PRECEDING, MODIFIED_PRECEDING };

struct civil {
    int year, month, day;
};

static struct civil civil_of(uint32_t number)
{
    uint32_t z = number + 305, era = z / 146097, of_era = z % 146097;
    uint32_t year = (of_era - of_era / 1460 + of_era / 36524 - of_era / 146096) / 365;
    uint32_t of_year = of_era - (365 * year + year / 4 - year / 100), month = (5 * of_year + 2) / 153;
    struct civil c;
    c.day = (int)(of_year - (153 * month + 2) / 5 + 1);
    c.month = (int)(month < 10 ? month + 3 : month - 9);
    c.year = (int)(year + era * 400 + (c.month <= 2));
    return c;
}

static uint32_t number_of(int year, int month, int day_of_month)
{
    uint32_t y = (uint32_t)(year - (month <= 2)), era = y / 400, of_era = y % 400;
    uint32_t of_year = (153 * (uint32_t)(month > 2 ? month - 3 : month + 9) + 2) / 5 + (uint32_t)day_of_month - 1;
    return era * 146097 + of_era * 365 + of_era / 4 - of_era / 100 + of_year - 305;
}

static int month_length(int year, int month)
{
    static const uint8_t lengths[] = {31, 28, 31, 30, 31, 30, 31, 31, 30, 31, 30, 31};
    int leap = year % 4 == 0 && (year % 100 != 0 || year % 400 == 0);
    return lengths[month - 1] + (month == 2 && leap);
}

static int is_closed_date(const struct calendar *c, uint32_t number)
{
    size_t low = 0, high = c->count;
    while (low < high) {
        size_t middle = (low + high) / 2;
        if (c->closed[middle] < number)
            low = middle + 1;
        else
            high = middle;
    }
    return low < c->count && c->closed[low] == number;
}

static int is_open(const struct calendar *c, uint32_t number)
{
    return !(c->mask >> (number - 1) % 7 & 1) && !is_closed_date(c, number);
}

static uint32_t search(const struct calendar *c, uint32_t number, int step)
{
    while (!is_open(c, number))
        number += (uint32_t)step;
    return number;
}

static uint32_t adjusted(const struct calendar *c, uint32_t number, int convention)
{
    if (convention == UNADJUSTED || (c->mask == 0 && c->count == 0))
        return number;
    int step = convention == FOLLOWING || convention == MODIFIED_FOLLOWING ? 1 : -1;
    uint32_t found = search(c, number, step);
    if (found != number && (convention == MODIFIED_FOLLOWING || convention == MODIFIED_PRECEDING) &&
        civil_of(found).month != civil_of(number).month)
        return search(c, number, -step);
    return found;
}

static uint32_t dates[PLACES], unadjusted[PLACES];
static uint8_t flags[PLACES];

static uint32_t months_back(struct civil seed, int months)
{
    int all = seed.year * 12 + seed.month - 1 - months, year = all / 12, month = all % 12 + 1;
    int length = month_length(year, month);
    return number_of(year, month, seed.day < length ? seed.day : length);
}

static long merged(long n)
{
    if (n >= 2 && dates[n - 2] >= dates[n - 1]) {
        if (n >= 3)
            flags[n - 3] = dates[n - 2] == dates[n - 1];
        dates[n - 2] = dates[n - 1];
        unadjusted[n - 2] = unadjusted[n - 1];
        n--;
    }
    if (n >= 2 && dates[1] <= dates[0]) {
        flags[1] = dates[1] == dates[0];
        memmove(dates + 1, dates + 2, (size_t)(n - 2) * sizeof *dates);
        memmove(unadjusted + 1, unadjusted + 2, (size_t)(n - 2) * sizeof *unadjusted);
        memmove(flags, flags + 1, (size_t)(n - 2));
        n--;
    }
    return n;
}

/* The lists grow from the far end of the lent ones; each date is kept as adjusted, and beside it as it was. */
static long built(const struct build *b)
{
    const struct calendar *c = &b->calendar;
    int in_days = b->unit < 2, step = b->tenor * (b->unit == 1 ? 7 : b->unit == 3 ? 12 : 1);
    struct civil seed = civil_of(b->termination);
    size_t at = PLACES - 1;
    uint32_t kept = adjusted(c, b->termination, b->convention);
    dates[at] = adjusted(c, b->termination, b->terminal);
    unadjusted[at] = b->termination;
    for (int back = step;; back += step) {
        uint32_t candidate = in_days ? b->termination - (uint32_t)back : months_back(seed, back);
        if (candidate < b->effective)
            break;
        uint32_t moved = adjusted(c, candidate, b->convention);
        if (moved == kept)
            continue;
        if (at == 0)
            return -14;
        dates[--at] = kept = moved;
        unadjusted[at] = candidate;
        flags[at] = 1;
    }
    uint32_t first = adjusted(c, b->effective, b->convention);
    if (first != kept) {
        if (at == 0)
            return -14;
        dates[--at] = first;
        unadjusted[at] = b->effective;
        flags[at] = 0;
    }
    long n = (long)(PLACES - at);
    memmove(dates, dates + at, (size_t)n * sizeof *dates);
    memmove(unadjusted, unadjusted + at, (size_t)n * sizeof *unadjusted);
    memmove(flags, flags + at, (size_t)n - 1);
    return merged(n);
}

struct asked {
    struct build build;
    uint32_t day;
    uint8_t convention;
    struct calendar calendar;
    long answer;
};

static void build(void *with)
{
    struct asked *a = (struct asked *)with;
    a->answer = built(&a->build);
}

static void adjust(void *with)
{
    struct asked *a = (struct asked *)with;
    a->answer = adjusted(&a->calendar, a->day, a->convention);
}

/* The three working lists of a build of ours, set to zero by themselves. */
static void lists(void *with)
{
    (void)with;
    memset(dates, 0, sizeof dates);
    memset(unadjusted, 0, sizeof unadjusted);
    memset(flags, 0, sizeof flags);
}

int main(int argc, char **argv)
{
    read_words(argc, argv);
    while (next_line()) {
        struct asked a;
        const char *kind = word();
        if (strcmp(kind, "build") == 0 && (a.build = read_build(), a.build.rule == BACKWARD)) {
            print_times(build, &a);
            print_schedule(a.build.rule, UNITS[a.build.unit], (unsigned)a.build.tenor, a.answer, dates, flags);
        } else if (strcmp(kind, "adjust") == 0) {
            a.day = day();
            a.convention = byte();
            a.calendar = calendar();
            print_times(adjust, &a);
            printf("%ld", a.answer);
        } else if (strcmp(kind, "lists") == 0) {
            print_times(lists, &a);
            printf("%zu", sizeof dates + sizeof unadjusted + sizeof flags);
        } else {
            printf("unasked");
        }
        putchar('\n');
    }
    return 0;
}
