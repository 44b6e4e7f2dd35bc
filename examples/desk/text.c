/* desk text: reads texts, and shows each one's record and entry, or its refusal. */
#include "command.h"
#include "kept.h"
#include "show.h"
#include "store.h"
#include "texts.h"

#include <stdio.h>
#include <string.h>

/* Texts that are read one after another: for whom, and what became of them. */
struct reading {
    uint32_t house;
    struct store kept;
    enum status worst;
};

/* Which lines of a file the characters were counted in, and what parts texts that were counted together. */
static void show_count(const struct zone *zone, struct given given)
{
    unsigned long lines = (unsigned long)given_lines(given);
    unsigned long first = (unsigned long)given.line;

    printf("  characters   %lu", (unsigned long)zone->text.len);
    if (first > 0 && lines > 1) {
        printf(", in lines %lu to %lu", first, first + lines - 1);
    } else if (first > 0 && lines > 0) {
        printf(", in line %lu", first);
    }
    putchar('\n');
    if (first > 0 && lines > 1 && zone->text.len > LAMPHUDET_TEXT_MAX) {
        puts("  several?     an empty line parts two texts");
    }
}

static void show_refused(const struct zone *zone, struct given given, uint32_t house, lamphudet_answer answer)
{
    /* The house does not stand in the text, so no caret below the text points at it. */
    if (answer.number == LAMPHUDET_REFUSED_UNSOUND) {
        show_zone(zone, NOWHERE);
        printf("  house        %lu\n", (unsigned long)house);
    } else {
        show_zone(zone, answer.value);
    }
    if (answer.number == LAMPHUDET_REFUSED_LENGTH) {
        show_count(zone, given);
    }
    show_field(zone, answer.number, answer.value);
    show_refusal(answer);
}

static enum status read_zone(const struct zone *zone, struct given given, struct reading *reading)
{
    uint8_t entry[LAMPHUDET_ENTRY_MAX];
    lamphudet_answer answer = lamphudet_read_text(reading->house, zone->text.at, zone->text.len, entry, sizeof entry);
    enum status status = SOME_REFUSED;

    if (answer.number == LAMPHUDET_NOT_REFUSED) {
        show_zone(zone, NOWHERE);
        show_kept(entry, (size_t)answer.value);
        status = store_add(&reading->kept, entry, (size_t)answer.value) ? ALL_ACCEPTED : NOT_DONE;
    } else {
        show_refused(zone, given, reading->house, answer);
    }
    putchar('\n');
    return status;
}

static void read_text(struct given given, struct reading *reading)
{
    struct zone zone;
    enum status status = zone_join(&zone, given.at, given.len) ? read_zone(&zone, given, reading) : NOT_DONE;

    zone_free(&zone);
    reading->worst = status > reading->worst ? status : reading->worst;
}

/* 0 where the file cannot be read, which is told. */
static int read_file(const char *file, struct reading *reading)
{
    struct octets given = { NULL, 0, 0 };
    int whole = octets_read(&given, file);

    if (whole) {
        texts_of_file(given.len > 0 ? (const char *)given.at : "", given.len, read_text, reading);
    }
    octets_free(&given);
    return whole;
}

enum status command_text(const struct order *order)
{
    struct reading reading = { 0, { { NULL, 0, 0 }, 0 }, ALL_ACCEPTED };
    enum status status;
    int at;

    reading.house = order->house;
    if (order->operand_count == 0 && !read_file(order->file, &reading)) {
        return NOT_DONE;
    }
    for (at = 0; at < order->operand_count; at++) {
        struct given operand = { order->operands[at], strlen(order->operands[at]), 0 };

        read_text(operand, &reading);
    }
    status = store_write(&reading.kept, order->out, reading.worst);
    store_free(&reading.kept);
    return status;
}
