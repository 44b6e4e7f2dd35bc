/* An entry that was read, as the desk shows it. */
#ifndef DESK_KEPT_H
#define DESK_KEPT_H

#include <stddef.h>
#include <stdint.h>

/* The record in it, its octets, and the text that its record is written back as. */
void show_kept(const uint8_t *entry, size_t len);

#endif
