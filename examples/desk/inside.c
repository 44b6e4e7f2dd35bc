/* desk inside: looks into the file of a group, and shows its elements as they stand in each other, or its refusal. */
#include "element.h"
#include "input.h"
#include "show.h"

#include <inttypes.h>
#include <stdio.h>

/* The tag of group 13's file, whose inside is the State's own. */
#define STATES_OWN 0x6d

/* One element: its tag, two blanks further on for each that it stands in, its place, and the length that it says. */
static void show_element(const uint8_t *tag, size_t tag_len, size_t depth, size_t place, size_t length)
{
    char hex[5];

    snprintf(hex, sizeof hex, tag_len == 2 ? "%02x%02x" : "%02x", (unsigned)tag[0], (unsigned)tag[tag_len - 1]);
    printf("  %*s%-*s %7lu %7lu\n", (int)(2 * depth), "", (int)(20 - 2 * depth), hex, (unsigned long)place,
           (unsigned long)length);
}

/*
 * Goes over all elements of a file in which the library found every octet to be one's: each ends within the one that it stands
 * in, and none stands deeper than the library lets them.
 */
static void show_tree(const uint8_t *file, size_t len)
{
    size_t ends[LAMPHUDET_DEPTH_MAX + 1] = { 0 }; /* of those that the next element stands in */
    size_t depth = 0;
    size_t at = 0;
    struct element element;

    printf("  %-20s %7s %7s\n", "tag", "place", "length");
    while (at < len) {
        size_t tag_len = (file[at] & 0x1f) == 0x1f ? 2 : 1;

        if (depth > LAMPHUDET_DEPTH_MAX || !element_at(&element, file, len, at, tag_len)) {
            return;
        }
        show_element(file + at, tag_len, depth, at, element.end - element.content);
        if ((file[at] & 0x20) != 0 && file[0] != STATES_OWN) {
            ends[depth++] = element.end;
            at = element.content;
        } else {
            at = element.end;
        }
        while (depth > 0 && at == ends[depth - 1]) {
            depth--;
        }
    }
}

static enum status look_inside(const uint8_t *file, size_t len)
{
    lamphudet_answer answer = lamphudet_look_inside(file, len);

    printf("  octets       %lu\n", (unsigned long)len);
    if (answer.number == LAMPHUDET_NOT_REFUSED) {
        show_tree(file, len);
        printf("  elements: %" PRIu64 "\n", answer.value);
    } else {
        show_octets(file, len, answer.value);
        show_refusal(answer);
    }
    putchar('\n');
    return answer.number == LAMPHUDET_NOT_REFUSED ? ALL_ACCEPTED : SOME_REFUSED;
}

enum status command_inside(const struct order *order)
{
    struct octets file = { NULL, 0, 0 };
    enum status status = input_octets(&file, order, 1) ? look_inside(file.at, file.len) : NOT_DONE;

    octets_free(&file);
    return status;
}
