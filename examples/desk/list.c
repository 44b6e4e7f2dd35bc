/*
 * desk list: looks over the store's nightly list, and shows what each house has in it, or where it goes wrong. Of one house it
 * can write the entries out.
 */
#include "input.h"
#include "record.h"
#include "show.h"

#include <inttypes.h>
#include <stdio.h>
#include <string.h>

/* What a house has in a list: so many entries, which stand together. */
struct part {
    uint32_t house;
    unsigned long entries;
    lamphudet_stretch stretch;
};

static void show_part(const struct part *part)
{
    if (part->entries == 0) {
        printf("  house %-6" PRIu32 " no entries\n", part->house);
    } else {
        printf("  house %-6" PRIu32 " %lu entries, %" PRIu64 " octets from %" PRIu64 "\n", part->house, part->entries,
               part->stretch.length, part->stretch.start);
    }
}

/* What every house has, which one walk over an accepted list tells. The library asked for each looks over all of it each time. */
static void show_parts(const uint8_t *list, size_t len)
{
    struct part part = { 0, 0, { 0, 0 } };
    uint64_t at = 0;

    while (at < len) {
        lamphudet_answer next = lamphudet_next_entry(list, len, at);
        lamphudet_record record = lamphudet_open_entry(list + at, (size_t)(next.value - at));

        if (record.house != part.house && part.entries > 0) {
            show_part(&part);
        }
        if (record.house != part.house) {
            part.house = record.house;
            part.entries = 0;
            part.stretch.start = at;
        }
        part.entries++;
        part.stretch.length = next.value - part.stretch.start;
        at = next.value;
    }
    if (part.entries > 0) {
        show_part(&part);
    }
}

/* How many entries begin before a place, up to which they are entries, and where the last of them begins. */
static unsigned long entries_before(const uint8_t *list, size_t len, uint64_t place, uint64_t *last)
{
    unsigned long entries = 0;
    uint64_t at = 0;

    for (; at < place; at = lamphudet_next_entry(list, len, at).value) {
        *last = at;
        entries++;
    }
    return entries;
}

static void show_entry(const uint8_t *list, size_t len, uint64_t at)
{
    lamphudet_answer next = lamphudet_next_entry(list, len, at);
    lamphudet_record record = lamphudet_open_entry(list + at, (size_t)(next.value - at));

    show_row(at, &record);
}

/* Which entry it is, and where it is out of order also the one before, with all that a key is made of. */
static void show_refused(const uint8_t *list, size_t len, lamphudet_answer refusal)
{
    uint64_t before = 0;
    unsigned long entries = entries_before(list, len, refusal.value, &before);

    show_octets(list, len, refusal.value);
    show_refusal(refusal);
    printf("  entry        %lu of the list", entries + 1);
    if (refusal.number == LAMPHUDET_REFUSED_ORDER) {
        int equal = memcmp(list + before, list + refusal.value, LAMPHUDET_KEY) == 0;

        puts(equal ? ", with the key of the one before" : ", with a key below that of the one before");
        show_heading();
        show_entry(list, len, before);
        show_entry(list, len, refusal.value);
    } else {
        putchar('\n');
    }
}

/* What one house has, written out where a file is named: also nothing, which is the empty list. */
static enum status hand_out(const uint8_t *list, size_t len, const struct order *order)
{
    struct part part = { order->house, 0, lamphudet_house_entries(list, len, order->house) };
    const uint8_t *own = part.stretch.length > 0 ? list + part.stretch.start : NULL;
    size_t own_len = (size_t)part.stretch.length;
    uint64_t last;

    part.entries = entries_before(own, own_len, own_len, &last);
    show_part(&part);
    if (order->out != NULL) {
        if (!octets_write(order->out, own, own_len)) {
            return NOT_DONE;
        }
        printf("  written      %lu entries, %lu octets, to %s\n", part.entries, (unsigned long)own_len, order->out);
    }
    return ALL_ACCEPTED;
}

static enum status look_over(const uint8_t *list, size_t len, const struct order *order)
{
    lamphudet_answer answer = lamphudet_look_over(list, len);
    enum status status = ALL_ACCEPTED;

    printf("  octets       %lu\n", (unsigned long)len);
    if (answer.number != LAMPHUDET_NOT_REFUSED) {
        show_refused(list, len, answer);
        status = SOME_REFUSED;
    } else {
        printf("  entries      %" PRIu64 "\n", answer.value);
        if (order->has_house) {
            status = hand_out(list, len, order);
        } else {
            show_parts(list, len);
        }
    }
    putchar('\n');
    return status;
}

enum status command_list(const struct order *order)
{
    struct octets list = { NULL, 0, 0 };
    enum status status = input_octets(&list, order, 1) ? look_over(list.at, list.len, order) : NOT_DONE;

    octets_free(&list);
    return status;
}
