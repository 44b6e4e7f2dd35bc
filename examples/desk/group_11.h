/* What the file of group 11 in a presentation says of the passenger. */
#ifndef DESK_GROUP_11_H
#define DESK_GROUP_11_H

#include "element.h"

#include <lamphudet.h>

/* The group that has the passenger's details. */
#define GROUP_11 11

/*
 * Its details, or why the library does not read them, which refuses no presentation. Places count from
 * the presentation's start.
 */
void show_group_11(const uint8_t *presentation, lamphudet_stretch file);

/* The full name, where it stands, and the one that the presentation's text has. */
void show_full_name(const uint8_t *presentation, lamphudet_stretch file, struct element text);

#endif
