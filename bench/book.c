/* A book against single calls from the same bytes, each in the room then left. `measured` is, for small trades, for large ones and for
 * bytes that are no requests: the book, then the single calls. A large trade has 4,096 closed dates, and 361 dates, each adjusted. */
#include <stdio.h>
#include <stdlib.h>
#include <string.h>
#include "heronspan.h"

enum { TRADES = 60, REFUSED = 64, LONGEST = 16500, ROOM = TRADES * 512 };

static uint8_t whole[REFUSED * LONGEST], flags[ROOM];
static uint32_t dates[ROOM], unadjusted[ROOM], answers[REFUSED * HERONSPAN_BOOK_ANSWER], answer[HERONSPAN_RECORD];
static size_t length, requests;

static void four(uint32_t number) {
    for (int j = 0; j < 4; j++)
        whole[length++] = (uint8_t)(number >> (24 - 8 * j));
}

static void head(uint8_t tag, size_t size) {
    whole[length++] = tag;
    whole[length++] = (uint8_t)(size / 256);
    whole[length++] = (uint8_t)(size % 256);
}

/* A monthly trade over so many years, weekends closed, with so many closed dates. */
static void trade(uint32_t years, uint32_t closed) {
    size_t from = length;
    uint32_t start = (uint32_t)heronspan_make(2025, 1, 15), end = (uint32_t)heronspan_make(2025 + years, 1, 15);
    length += 2;
    head(1, 4), four(start);
    head(2, 4), four(end);
    head(3, 3), whole[length++] = 'M', whole[length++] = 0, whole[length++] = 1;
    head(5, 1), whole[length++] = HERONSPAN_FOLLOWING;
    head(6, 1), whole[length++] = HERONSPAN_FOLLOWING;
    head(10, 1), whole[length++] = HERONSPAN_WEEKENDS;
    head(11, 4 * closed);
    for (uint32_t i = 0; i < closed; i++)
        four(start + 2 * i);
    head(255, 0);
    whole[from] = (uint8_t)((length - from - 2) / 256);
    whole[from + 1] = (uint8_t)((length - from - 2) % 256);
    requests++;
}

static void prepare(int what) {
    length = requests = 0;
    for (int i = 0; i < TRADES && what < 4; i++)
        what < 2 ? trade(1, 0) : trade(30, 4096);
    for (; requests < REFUSED && what >= 4; requests++)
        whole[length++] = 0, whole[length++] = 0;
}

static void singly(void) {
    size_t at = 0, start = 0;
    for (size_t i = 0; i < requests; i++) {
        size_t size = (size_t)whole[at] * 256 + whole[at + 1], room = ROOM - start;
        int64_t count = heronspan_build_bytes(whole + at + 2, size, dates + start, room, flags + start, room, unadjusted + start, room,
                                              answer, HERONSPAN_RECORD);
        start += count < 0 ? 0 : (size_t)count;
        at += 2 + size;
    }
    answers[0] = (uint32_t)start;
}

__attribute__((noinline)) void measured(int what) {
    if (what % 2)
        singly();
    else if (heronspan_book(whole, length, dates, ROOM, flags, ROOM, unadjusted, ROOM, answers, requests * HERONSPAN_BOOK_ANSWER) !=
             (int64_t)requests)
        exit(3);
}

int main(void) {
    uint32_t taken = 0;
    for (int what = 0; what < 6; what++) {
        prepare(what);
        measured(what);
        uint32_t *last = answers + HERONSPAN_BOOK_ANSWER * (requests - 1);
        if (what % 2 == 0)
            taken = last[HERONSPAN_BOOK_START] + last[HERONSPAN_BOOK_COUNT];
        else if (answers[0] != taken)
            exit(4);
        printf("%u\n", (unsigned)taken);
    }
    return 0;
}
