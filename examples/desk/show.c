#include "show.h"

#include <inttypes.h>
#include <stdio.h>

/* How much of a line, and how many lines, are shown of a text that is of no form. No form's line is longer. */
#define WIDEST 60
#define MOST_LINES 4

static void show_line(const struct zone *zone, size_t start, size_t end, uint64_t place)
{
    size_t shown = end - start < WIDEST ? end - start : WIDEST;

    fputs("    ", stdout);
    put_characters(zone->text.at + start, shown);
    fputs(start + shown < end ? " ..\n" : "\n", stdout);
    if (place >= start && place < start + shown) {
        put_caret(place - start);
    }
}

void show_zone(const struct zone *zone, uint64_t place)
{
    size_t width = line_width(zone->text.len);
    size_t lines = 0;
    size_t start;
    size_t end;

    for (start = 0; start < zone->text.len && lines < MOST_LINES; start = end, lines++) {
        end = start + 1;
        while (end < zone->text.len && (width > 0 ? end % width != 0 : !zone->begins.at[end])) {
            end++;
        }
        show_line(zone, start, end, place);
    }
    if (start < zone->text.len) {
        puts("    ..");
    }
}

void show_field(const struct zone *zone, uint32_t number, uint64_t place)
{
    if (number >= LAMPHUDET_REFUSED_CHARACTER && number <= LAMPHUDET_REFUSED_DIGIT) {
        printf("  field        %s\n", lamphudet_field(zone->text.at, zone->text.len, place));
    }
}

void show_text(const char *label, const uint8_t *text, size_t len)
{
    size_t width = line_width(len);
    size_t start;

    for (start = 0; start < len && width > 0; start += width) {
        printf("  %-13s", start == 0 ? label : "");
        put_characters(text + start, width);
        putchar('\n');
    }
}

void show_file(uint32_t group, lamphudet_stretch file)
{
    printf("  group %-6" PRIu32 " %" PRIu64 " octets from %" PRIu64 "\n", group, file.length, file.start);
}
