#include "utf8.h"

#include <stdio.h>

#define NONE UINT32_MAX /* no character: what stands there is not well formed */

/* Characters that are not printed, in rising order. */
static const struct span {
    uint32_t first, last;
} hidden[] = {
    { 0x0000, 0x001f },   /* controls */
    { 0x007f, 0x009f },   /* delete, and the second set of controls */
    { 0x061c, 0x061c },   /* Arabic letter mark */
    { 0x200b, 0x200b },   /* space without width; 200C and 200D join and part letters */
    { 0x200e, 0x200f },   /* marks of direction */
    { 0x2028, 0x202e },   /* ends of lines and paragraphs; embeddings and overrides of direction */
    { 0x2060, 0x206f },   /* joiners and operators that are not seen, isolates of direction */
    { 0xfeff, 0xfeff },   /* byte order mark */
    { 0xfff9, 0xfffb },   /* marks of annotations */
    { 0xe0000, 0xe007f }, /* tags */
};

/* The character that stands here, and how many octets it has. Each has one form, the shortest, and surrogates have none. */
static uint32_t character_at(const uint8_t *octets, size_t len, size_t *width)
{
    static const uint32_t least[5] = { 0, 0, 0x80, 0x800, 0x10000 }; /* by the octets: less has a shorter form */
    uint8_t first = octets[0];
    uint32_t character;
    size_t at;

    *width = first < 0x80 ? 1 : first < 0xc0 ? 0 : first < 0xe0 ? 2 : first < 0xf0 ? 3 : first < 0xf8 ? 4 : 0;
    if (*width == 0 || *width > len) {
        return NONE;
    }
    character = *width == 1 ? first : first & (0x7fU >> *width);
    for (at = 1; at < *width; at++) {
        if ((octets[at] & 0xc0) != 0x80) {
            return NONE;
        }
        character = 64 * character + (octets[at] & 0x3fU);
    }
    if (character < least[*width] || character > 0x10ffff || (character >= 0xd800 && character <= 0xdfff)) {
        return NONE;
    }
    return character;
}

static int is_hidden(uint32_t character)
{
    size_t at;

    for (at = 0; at < sizeof hidden / sizeof hidden[0]; at++) {
        if (character >= hidden[at].first && character <= hidden[at].last) {
            return 1;
        }
    }
    return 0;
}

int utf8_is_plain(const uint8_t *octets, size_t len)
{
    size_t at;
    size_t width;

    for (at = 0; at < len; at += width) {
        uint32_t character = character_at(octets + at, len - at, &width);

        if (character == NONE || is_hidden(character)) {
            return 0;
        }
    }
    return 1;
}

void put_utf8(const uint8_t *octets, size_t len)
{
    size_t at;

    if (utf8_is_plain(octets, len)) {
        fwrite(octets, 1, len, stdout);
        return;
    }
    for (at = 0; at < len; at++) {
        if (octets[at] == '\\') {
            fputs("\\\\", stdout);
        } else if (octets[at] >= ' ' && octets[at] <= '~') {
            putchar(octets[at]);
        } else {
            printf("\\x%02x", (unsigned)octets[at]);
        }
    }
}
