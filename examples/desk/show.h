/* What only the desk prints: texts, and where files stand. */
#ifndef DESK_SHOW_H
#define DESK_SHOW_H

#include "print.h"
#include "zone.h"

#include <lamphudet.h>

/* A place that no text has: no caret. */
#define NOWHERE UINT64_MAX

/*
 * A text by the lines of its form, or by the lines in which it was given where its length is no
 * form's; and a caret below a place.
 */
void show_zone(const struct zone *zone, uint64_t place);

/* In which field of its text a refusal by 2 to 9 stands, at a place of the text; nothing for other refusals. */
void show_field(const struct zone *zone, uint32_t number, uint64_t place);

/* A text that the library wrote, by the lines of its form. */
void show_text(const char *label, const uint8_t *text, size_t len);

/* Where a group's file stands in its presentation. */
void show_file(uint32_t group, lamphudet_stretch file);

#endif
