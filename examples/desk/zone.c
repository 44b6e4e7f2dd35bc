#include "zone.h"

static int is_line_end(char character)
{
    return character == '\n' || character == '\r';
}

static int is_blank(char character)
{
    return character == ' ' || character == '\t';
}

size_t line_width(size_t len)
{
    switch (len) {
    case 90: return 30;
    case 72: return 36;
    case 88: return 44;
    default: return 0;
    }
}

/* The width of a line in TD1, in TD2 and MRV-B, or in TD3 and MRV-A. */
static int is_width(size_t characters)
{
    return characters == 30 || characters == 36 || characters == 44;
}

/* A line without the blanks at its ends. */
struct line {
    const char *at;
    size_t len;
};

/* The next line that is not empty, from *at on, which moves behind it. 0 where none is left. */
static int next_line(const char *given, size_t len, size_t *at, struct line *line)
{
    size_t end;

    while (*at < len && (is_line_end(given[*at]) || is_blank(given[*at]))) {
        ++*at;
    }
    for (end = *at; end < len && !is_line_end(given[end]); end++) {
    }
    line->at = given + *at;
    line->len = end - *at;
    *at = end;
    while (line->len > 0 && is_blank(line->at[line->len - 1])) {
        line->len--;
    }
    return line->len > 0;
}

static int add_line(struct zone *zone, struct line line, int alone)
{
    size_t width = 0; /* of the line of the zone so far */
    size_t at;

    for (at = 0; at < line.len; at++) {
        uint8_t begins = width == 0;

        if (alone && is_blank(line.at[at]) && (begins || is_width(width))) {
            width = 0;
            continue;
        }
        if (!octets_add(&zone->text, line.at + at, 1) || !octets_add(&zone->begins, &begins, 1)) {
            return 0;
        }
        width++;
    }
    return 1;
}

static void zone_clear(struct zone *zone)
{
    static const struct zone empty;

    *zone = empty;
}

int zone_join(struct zone *zone, const char *given, size_t len)
{
    struct line line;
    size_t lines = 0;
    size_t at;

    zone_clear(zone);
    for (at = 0; next_line(given, len, &at, &line); lines++) {
    }
    for (at = 0; next_line(given, len, &at, &line);) {
        if (!add_line(zone, line, lines == 1)) {
            return 0;
        }
    }
    return 1;
}

int zone_is_whole(const char *given, size_t len)
{
    struct zone zone;
    int whole = zone_join(&zone, given, len) && line_width(zone.text.len) > 0;

    zone_free(&zone);
    return whole;
}

int zone_of(struct zone *zone, const uint8_t *text, size_t len)
{
    struct line line;

    line.at = (const char *)text;
    line.len = len;
    zone_clear(zone);
    return add_line(zone, line, 0);
}

void zone_free(struct zone *zone)
{
    octets_free(&zone->text);
    octets_free(&zone->begins);
}
