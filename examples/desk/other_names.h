/*
 * A passenger's other names, in the element A0 of group 11's file. The library hands it out whole and
 * does not look into it; Doc 9303-10 has in it 02 01 and the number of names, then each as 5F0F.
 */
#ifndef DESK_OTHER_NAMES_H
#define DESK_OTHER_NAMES_H

#include <stddef.h>
#include <stdint.h>

/* Goes over the names. Begins with other_names_in. */
struct other_names {
    const uint8_t *octets;
    size_t len;
    size_t at;     /* where the next one stands */
    unsigned left; /* how many there are still */
};

/* The names in an element A0. 0 where its inside is not as above, to the last octet. */
int other_names_in(struct other_names *names, const uint8_t *octets, size_t len);

/* The next name, and its length. NULL where none is left. */
const uint8_t *other_names_next(struct other_names *names, size_t *len);

#endif
