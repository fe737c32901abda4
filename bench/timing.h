/* Times calls, for C and C++. A program that includes this reads questions and prints for each the median and the least
   time of a call in nanoseconds, and the answer; `--once` makes each call twice and prints the answer alone, for
   callgrind to count the instructions inside `measured`. */
#ifndef TIMING_H
#define TIMING_H
#include <time.h>
#include "../oracle/ours/question.h"

enum { ROUND_NS = 100000, MOST_ROUNDS = 1001 };

typedef void (*call)(void *);

#ifdef __cplusplus
extern "C"
#endif
__attribute__((noinline)) void measured(call made, void *with)
{
    made(with);
    __asm__ volatile("" ::: "memory");
}

static double nanoseconds(void)
{
    struct timespec t;
    clock_gettime(CLOCK_THREAD_CPUTIME_ID, &t);
    return (double)t.tv_sec * 1e9 + (double)t.tv_nsec;
}

static double round_of(call made, void *with, long calls)
{
    double start = nanoseconds();
    for (long i = 0; i < calls; i++)
        measured(made, with);
    return (nanoseconds() - start) / (double)calls;
}

static int ascending(const void *a, const void *b)
{
    double x = *(const double *)a, y = *(const double *)b;
    return (x > y) - (x < y);
}

static int rounds;

/* Prints the times, without the end of the line. */
static void print_times(call made, void *with)
{
    static double took[MOST_ROUNDS];
    if (rounds == 0) {
        measured(made, with);
        measured(made, with);
        return;
    }
    round_of(made, with, 1); /* An emulator translates the code in it. */
    double once = round_of(made, with, 1);
    long calls = once >= ROUND_NS ? 1 : (long)(ROUND_NS / (once + 1)) + 1;
    for (int i = 0; i < rounds; i++)
        took[i] = round_of(made, with, calls);
    qsort(took, (size_t)rounds, sizeof *took, ascending);
    printf("%.1f %.1f ", took[rounds / 2], took[0]);
}

static void read_words(int argc, char **argv)
{
    if (argc == 2 && strcmp(argv[1], "--once") == 0)
        rounds = 0;
    else if (argc == 3 && strcmp(argv[1], "--time") == 0 && atoi(argv[2]) > 0 && atoi(argv[2]) <= MOST_ROUNDS)
        rounds = atoi(argv[2]);
    else {
        fprintf(stderr, "usage: %s --once | --time ROUNDS < questions\n", argv[0]);
        exit(2);
    }
}

/* A schedule as the oracle prints it. */
static void print_schedule(unsigned rule, char unit_letter, unsigned length, long dates_count, const uint32_t *dates,
                           const uint8_t *flags)
{
    printf("ok %u %c %u %ld", rule, unit_letter, length, dates_count);
    for (long i = 0; i < dates_count; i++)
        printf(" %u", dates[i]);
    for (long i = 0; i + 1 < dates_count; i++)
        printf(" %u", flags[i]);
}

#endif
