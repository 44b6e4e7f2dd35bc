/*
 * A host of the installed library: entries that are sorted by memcmp over the shorter length stand in the order of house,
 * form, issuing state and number, < before digits and digits before letters, also where one name is longer than another.
 * Exit status 0 where that is so.
 */
#include <lamphudet.h>
#include <stdio.h>
#include <stdlib.h>
#include <string.h>

/* In the order that they should have: by house, and in a house by form, state and number. */
static const struct {
    uint32_t house;
    const char *text;
} in_order[] = {
    { 1, "I<UTOD23145890<7349<<<<<<<<<<<" "3407127M9507122UTO<<<<<<<<<<<2" "STEVENSON<<PETER<JOHN<<<<<<<<<" },
    { 1, "I<UTOERIKSSON<<ANNA<MARIA<<<<<<<<<<<" "D231458907UTO7408122F1204159<<<<<<<6" },
    { 1, "P<UTONORD<<ELIN<<<<<<<<<<<<<<<<<<<<<<<<<<<<<" "K7<<<<<<<1UTO9001158F3006302<<<<<<<<<<<<<<00" },
    { 1, "P<UTOERIKSSON<<ANNA<MARIA<<<<<<<<<<<<<<<<<<<" "L898902C36UTO7408122F1204159ZE184226B<<<<<10" },
    { 1, "V<UTOERIKSSON<<ANNA<MARIA<<<<<<<<<<<<<<<<<<<" "L8988901C4XXX4009078F96121096ZE184226B<<<<<<" },
    { 1, "V<UTOERIKSSON<<ANNA<MARIA<<<<<<<<<<<" "L8988901C4XXX4009078F9612109<<<<<<<<" },
    { 256, "I<UTOD231458907<<<<<<<<<<<<<<<" "7408122F1204159UTO<<<<<<<<<<<6" "ERIKSSON<<ANNA<MARIA<<<<<<<<<<" },
    { 256, "I<UTOD23145890<7349<<<<<<<<<<<" "3407127M9507122UTO<<<<<<<<<<<2" "STEVENSON<<PETER<JOHN<<<<<<<<<" },
    { LAMPHUDET_HOUSE_MAX,
      "P<UTONORD<<ELIN<<<<<<<<<<<<<<<<<<<<<<<<<<<<<" "K7<<<<<<<1UTO9001158F3006302<<<<<<<<<<<<<<00" },
};
enum { ENTRIES = sizeof in_order / sizeof in_order[0] };

struct kept {
    uint8_t octets[LAMPHUDET_ENTRY_MAX];
    size_t len;
};

static int by_octets(const void *one, const void *other)
{
    const struct kept *first = (const struct kept *)one;
    const struct kept *second = (const struct kept *)other;

    return memcmp(first->octets, second->octets, first->len < second->len ? first->len : second->len);
}

/* The last first. */
static int read_all(struct kept *kept)
{
    int at;

    for (at = 0; at < ENTRIES; at++) {
        struct kept *into = &kept[ENTRIES - 1 - at];
        size_t len = strlen(in_order[at].text);
        lamphudet_answer answer =
            lamphudet_read_text(in_order[at].house, (const uint8_t *)in_order[at].text, len, into->octets, sizeof into->octets);

        if (answer.number != LAMPHUDET_NOT_REFUSED) {
            printf("text %d: %s\n", at, lamphudet_words(answer.number));
            return 0;
        }
        into->len = (size_t)answer.value;
    }
    return 1;
}

int main(void)
{
    struct kept kept[ENTRIES];
    uint8_t text[LAMPHUDET_TEXT_MAX];
    int right = read_all(kept);
    int at;

    qsort(kept, ENTRIES, sizeof kept[0], by_octets);
    for (at = 0; right && at < ENTRIES; at++) {
        lamphudet_record record = lamphudet_open_entry(kept[at].octets, kept[at].len);
        lamphudet_answer written = lamphudet_write_text(kept[at].octets, kept[at].len, text, sizeof text);

        right = record.house == in_order[at].house && written.value == strlen(in_order[at].text)
             && memcmp(text, in_order[at].text, (size_t)written.value) == 0;
    }
    printf("order %s\n", right ? "right" : "WRONG");
    return !right;
}
