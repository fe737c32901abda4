/* A request of 16,444 bytes, the longest, fed in parts. `measured` is one of: the whole in one part, parts of 1,460 bytes, byte by
 * byte, the finish; and heronspan_build_bytes of the same bytes, which is refused by its dates once they are decoded. */
#include <stdio.h>
#include <stdlib.h>
#include <string.h>
#include "heronspan.h"

static uint8_t whole[16444], buffer[HERONSPAN_WIRE], flags[1];
static uint32_t closed[HERONSPAN_MOST], dates[1], unadjusted[1], answer[HERONSPAN_RECORD];
static heronspan_reader reader;

static size_t put(size_t at, uint8_t tag, const uint8_t *body, size_t n) {
    whole[at] = tag;
    whole[at + 1] = (uint8_t)(n / 256);
    whole[at + 2] = (uint8_t)(n % 256);
    memcpy(whole + at + 3, body, n);
    return at + 3 + n;
}

static void prepare(void) {
    static uint8_t days[4 * HERONSPAN_MOST];
    static const uint8_t none[4], tenor[3] = {'M', 0, 1}, one[1] = {1};
    size_t at = 0;
    for (uint32_t i = 0; i < HERONSPAN_MOST; i++) {
        uint32_t day = 657072 + 50 * i;
        for (int j = 0; j < 4; j++)
            days[4 * i + j] = (uint8_t)(day >> (24 - 8 * j));
    }
    at = put(at, 1, none, 4);
    at = put(at, 2, none, 4);
    at = put(at, 3, tenor, 3);
    for (uint8_t tag = 4; tag < 8; tag++)
        at = put(at, tag, one, 1);
    at = put(at, 8, none, 4);
    at = put(at, 9, none, 4);
    at = put(at, 10, one, 1);
    at = put(at, 11, days, sizeof days);
    at = put(at, 255, none, 0);
    if (at != sizeof whole)
        exit(2);
}

static void fed(size_t size) {
    for (size_t at = 0; at < sizeof whole; at += size) {
        size_t left = sizeof whole - at;
        if (heronspan_feed(&reader, whole + at, left < size ? left : size, buffer, sizeof buffer, closed, HERONSPAN_MOST))
            exit(3);
    }
}

__attribute__((noinline)) void measured(int what) {
    switch (what) {
    case 0:
        fed(sizeof whole);
        break;
    case 1:
        fed(1460);
        break;
    case 2:
        fed(1);
        break;
    case 3:
        if (heronspan_finish(&reader, buffer, sizeof buffer, closed, HERONSPAN_MOST) != 1)
            exit(4);
        break;
    case 4:
        if (heronspan_build_bytes(whole, sizeof whole, dates, 1, flags, 1, unadjusted, 1, answer, HERONSPAN_RECORD) !=
            -HERONSPAN_BOOK)
            exit(5);
        break;
    case 5:
        memcpy(buffer, whole, sizeof whole);
        break;
    }
}

int main(void) {
    prepare();
    for (int what = 0; what < 6; what++) {
        if (what < 3)
            heronspan_reset(&reader);
        measured(what);
    }
    printf("%u\n", (unsigned)sizeof reader.state);
    return 0;
}
