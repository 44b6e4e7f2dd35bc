/* Octets written in hex. */
#ifndef SHARED_HEX_H
#define SHARED_HEX_H

#include "octets.h"

/* Where hex is read: told where it is wrong. */
struct hex_place {
    const char *of;     /* a file, or NULL */
    const char *part;   /* "line", or "HEX" for an operand */
    unsigned long part_number;
};

/* Octets that are read line by line, or operand by operand. Begins as { { NULL, 0, 0 }, -1 }. */
struct hex {
    struct octets octets;
    int first; /* the digit that waits for its second, or -1 */
};

/*
 * Adds the octets of a line or an operand, whatever blanks part the digits. 0 where a character is no
 * hex digit, which is told with its line and column.
 */
int hex_add(struct hex *hex, const char *digits, size_t len, struct hex_place place);

/* Whether all digits found their second. Where not, that is told. */
int hex_is_whole(const struct hex *hex, struct hex_place last);

#endif
