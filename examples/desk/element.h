/*
 * An element of a presentation, or in a group's file: a tag, a length in its shortest form, and a
 * content. The library has walked over them before the desk does, but for what stands in group 11's
 * other names; the desk looks where they stand, to say which stage a place belongs to, to show a text
 * and those names, and to show what stands in what.
 */
#ifndef DESK_ELEMENT_H
#define DESK_ELEMENT_H

#include <stddef.h>
#include <stdint.h>

struct element {
    size_t content; /* where that starts */
    size_t end;
};

/*
 * The element at a place, with a tag of so many octets. 0 where none stands there that ends within
 * the octets.
 */
int element_at(struct element *element, const uint8_t *octets, size_t len, size_t place, size_t tag_len);

#endif
