/* Calendar files imported, and the same files read by libical: parsed, and the dates of each event asked for. The words are names of
 * files; `measured` is called twice for each, ours first. */
#include <libical/ical.h>
#include <stdio.h>
#include <stdlib.h>
#include "heronspan.h"

static char file[HERONSPAN_FILE + 1];
static size_t size;
static uint32_t days[HERONSPAN_MOST], line[1];
static int64_t answer;
static long found;

static void by_libical(void) {
    icalcomponent *root = icalparser_parse_string(file);
    found = 0;
    for (icalcomponent *event = icalcomponent_get_first_component(root, ICAL_VEVENT_COMPONENT); event;
         event = icalcomponent_get_next_component(root, ICAL_VEVENT_COMPONENT)) {
        struct icaltimetype first = icalcomponent_get_dtstart(event), past = icalcomponent_get_dtend(event);
        found += first.is_date && past.is_date;
    }
    icalcomponent_free(root);
}

__attribute__((noinline)) void measured(int libical) {
    if (libical)
        by_libical();
    else
        answer = heronspan_holidays_import((const uint8_t *)file, size, days, HERONSPAN_MOST, line, 1);
    __asm__ volatile("" ::: "memory");
}

int main(int argc, char **argv) {
    for (int i = 1; i < argc; i++) {
        FILE *source = fopen(argv[i], "rb");
        if (!source)
            return 2;
        size = fread(file, 1, HERONSPAN_FILE, source);
        file[size] = 0;
        fclose(source);
        measured(0);
        measured(1);
        printf("%s %zu %lld %u %ld\n", argv[i], size, (long long)answer, line[0], found);
    }
    return 0;
}
