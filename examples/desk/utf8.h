/* Characters that a chip wrote, in UTF-8 where they are as they should be. */
#ifndef DESK_UTF8_H
#define DESK_UTF8_H

#include <stddef.h>
#include <stdint.h>

/*
 * Whether octets are well-formed UTF-8 and hold no character that steers a terminal, turns the
 * direction of writing or ends a line, and none that cannot be seen, but for the two that join and
 * part letters, without which some names cannot be written.
 */
int utf8_is_plain(const uint8_t *octets, size_t len);

/*
 * Prints them as they are where they are plain. Else every octet that is not printable ASCII is \x and
 * two digits of hex, and a backslash is two, all through.
 */
void put_utf8(const uint8_t *octets, size_t len);

#endif
