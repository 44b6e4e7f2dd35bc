/*
 * A machine readable zone as people hand it over: in lines. The library is lent its text, which is
 * the lines joined.
 */
#ifndef DESK_ZONE_H
#define DESK_ZONE_H

#include "octets.h"

struct zone {
    struct octets text;
    struct octets begins; /* for each place of the text 1 where a line of what was given begins, else 0 */
};

/* The characters in each line of a text of so many, or 0 where no form has a text of so many. */
size_t line_width(size_t len);

/*
 * Joins the lines of what was given, blanks at either end of a line left out. In a text that is
 * given in one line, blanks behind 30, 36 or 44 characters, the widths of the forms' lines, end a
 * line too. Every other blank stays, and is for the library to refuse. 0 where memory ran out.
 */
int zone_join(struct zone *zone, const char *given, size_t len);

/* Whether what was given has as many characters, joined, as a text of some form. */
int zone_is_whole(const char *given, size_t len);

/* A text that is joined already. 0 where memory ran out. */
int zone_of(struct zone *zone, const uint8_t *text, size_t len);

void zone_free(struct zone *zone);

#endif
