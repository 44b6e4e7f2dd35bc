#include "hex.h"

#include "program.h"

#include <stdio.h>
#include <string.h>

/* -1 for a character that is no hex digit. */
static int digit(char character)
{
    static const char digits[] = "0123456789abcdef0123456789ABCDEF";
    const char *found = character == '\0' ? NULL : strchr(digits, character);

    return found == NULL ? -1 : (int)(found - digits) % 16;
}

static int is_between(char character)
{
    return character == ' ' || character == '\t' || character == '\r' || character == '\n';
}

/* The beginning of a message. */
static void tell_place(struct hex_place place)
{
    fprintf(stderr, "%s: %s%s%s %lu", program, place.of == NULL ? "" : place.of, place.of == NULL ? "" : ", ", place.part,
            place.part_number);
}

/* Nothing that would steer a terminal. */
static char shown(char character)
{
    return character > ' ' && character <= '~' ? character : '?';
}

int hex_add(struct hex *hex, const char *digits, size_t len, struct hex_place place)
{
    size_t at;

    for (at = 0; at < len; at++) {
        int found = digit(digits[at]);

        if (found < 0 && !is_between(digits[at])) {
            tell_place(place);
            fprintf(stderr, ", column %lu: %c is no hex digit\n", (unsigned long)(at + 1), shown(digits[at]));
            return 0;
        }
        if (found >= 0 && hex->first >= 0) {
            uint8_t octet = (uint8_t)(16 * hex->first + found);

            hex->first = -1;
            if (!octets_add(&hex->octets, &octet, 1)) {
                return 0;
            }
        } else if (found >= 0) {
            hex->first = found;
        }
    }
    return 1;
}

int hex_is_whole(const struct hex *hex, struct hex_place last)
{
    if (hex->first >= 0) {
        tell_place(last);
        fputs(": the hex ends in half an octet\n", stderr);
    }
    return hex->first < 0;
}
