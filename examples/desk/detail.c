#include "detail.h"

#include "other_names.h"
#include "utf8.h"

#include <stdio.h>

#define FULL_NAME 0x5f0e
#define OTHER_NAMES 0x5f0f
#define IMAGE 0x5f16

/* In the order, and by the names, of Doc 9303-10's table 50. */
static const struct named {
    uint32_t tag;
    const char *name;
} details[] = {
    { FULL_NAME, "full name" },
    { OTHER_NAMES, "other names" },
    { 0x5f10, "personal number" },
    { 0x5f2b, "full date of birth" },
    { 0x5f11, "place of birth" },
    { 0x5f42, "permanent address" },
    { 0x5f12, "telephone" },
    { 0x5f13, "profession" },
    { 0x5f14, "title" },
    { 0x5f15, "personal summary" },
    { IMAGE, "proof of citizenship" },
    { 0x5f17, "other valid TD numbers" },
    { 0x5f18, "custody information" },
};
#define DETAILS (sizeof details / sizeof details[0])

lamphudet_answer details_answer(const uint8_t *file, size_t len)
{
    lamphudet_detail detail = lamphudet_read_detail(file, len, FULL_NAME);
    lamphudet_answer answer = { detail.number, detail.expected, detail.value };

    return answer;
}

/* One that is not there starts at 0, where the file's own tag stands. */
static int is_there(lamphudet_detail detail)
{
    return detail.number == LAMPHUDET_NOT_REFUSED && detail.stretch.start != 0;
}

size_t details_count(const uint8_t *file, size_t len)
{
    size_t count = 0;
    size_t at;

    for (at = 0; at < DETAILS; at++) {
        count += is_there(lamphudet_read_detail(file, len, details[at].tag)) ? 1 : 0;
    }
    return count;
}

static void put_label(int blanks, const char *label)
{
    printf("%*s%-23s ", blanks, "", label);
}

static void put_value(const uint8_t *value, size_t len)
{
    if (len == 0) {
        fputs("empty", stdout);
    } else {
        put_utf8(value, len);
    }
    putchar('\n');
}

/* A line for each of them. What is not as Doc 9303-10 has it is shown as it stands. */
static void show_other_names(const uint8_t *value, size_t len, int blanks)
{
    struct other_names names;
    const uint8_t *name;
    size_t at;

    if (!other_names_in(&names, value, len)) {
        fputs("in hex, ", stdout);
        for (at = 0; at < len; at++) {
            printf("%02x", (unsigned)value[at]);
        }
        putchar('\n');
        return;
    }
    if (names.left == 0) {
        puts("none");
    }
    while ((name = other_names_next(&names, &len)) != NULL) {
        put_value(name, len);
        if (names.left > 0) {
            put_label(blanks, "");
        }
    }
}

void show_details(const uint8_t *file, size_t len, int blanks)
{
    size_t at;

    for (at = 0; at < DETAILS; at++) {
        lamphudet_detail detail = lamphudet_read_detail(file, len, details[at].tag);
        const uint8_t *value = file + detail.stretch.start;
        size_t value_len = (size_t)detail.stretch.length;

        if (!is_there(detail)) {
            continue;
        }
        put_label(blanks, details[at].name);
        if (details[at].tag == OTHER_NAMES) {
            show_other_names(value, value_len, blanks);
        } else if (details[at].tag == IMAGE) {
            printf("an image of %lu octets\n", (unsigned long)value_len);
        } else {
            put_value(value, value_len);
        }
    }
}
