/*
 * desk presentation: reads one, and shows its files and whether each is whole inside, what group 11 says of the passenger, and
 * its record and entry or its refusal with the stage.
 */
#include "element.h"
#include "group_11.h"
#include "input.h"
#include "kept.h"
#include "show.h"
#include "stage.h"
#include "store.h"

#include <inttypes.h>
#include <stdio.h>

/* Whether the file of a group is whole inside. That refuses no presentation. Places count from the presentation's start. */
static void show_inside(const uint8_t *presentation, lamphudet_stretch file)
{
    lamphudet_answer inside = lamphudet_look_inside(presentation + file.start, (size_t)file.length);

    fputs("    inside     ", stdout);
    if (inside.number == LAMPHUDET_NOT_REFUSED) {
        printf("whole, elements: %" PRIu64 "\n", inside.value);
    } else {
        inside.value += file.start;
        put_refusal(stdout, inside);
    }
}

/* The library hands out files wherever the outer walk passes, also where a later stage refuses. */
static void show_files(const uint8_t *presentation, size_t len)
{
    uint32_t group;

    printf("  octets       %lu\n", (unsigned long)len);
    for (group = 1; group <= 16; group++) {
        lamphudet_stretch file = lamphudet_group_file(presentation, len, group);

        if (file.length > 0) {
            show_file(group, file);
            show_inside(presentation, file);
            if (group == GROUP_11) {
                show_group_11(presentation, file);
            }
        }
    }
}

/* Group 1's text. Where the library refuses the text, it has found that this is there and fills the file. */
static int text_of(struct element *text, const uint8_t *presentation, size_t len)
{
    lamphudet_stretch file = lamphudet_group_file(presentation, len, 1);
    struct element group;

    return file.length > 0 && element_at(&group, presentation, len, (size_t)file.start, 1)
        && element_at(text, presentation, group.end, group.content, 2);
}

/* Of an accepted presentation, so that the text is sound. Nothing where no group 11 is lent. */
static void show_names(const uint8_t *presentation, size_t len)
{
    lamphudet_stretch file = lamphudet_group_file(presentation, len, GROUP_11);
    struct element text;

    if (file.length > 0 && text_of(&text, presentation, len)) {
        show_full_name(presentation, file, text);
    }
}

static void show_text_refused(const uint8_t *presentation, size_t len, lamphudet_answer refusal)
{
    struct element text;
    struct zone zone;

    if (!text_of(&text, presentation, len)) {
        return;
    }
    if (zone_of(&zone, presentation + text.content, text.end - text.content)) {
        show_zone(&zone, refusal.value - text.content);
        show_field(&zone, refusal.number, refusal.value - text.content);
    }
    if (refusal.number == LAMPHUDET_REFUSED_LENGTH) {
        printf("  characters   %lu\n", (unsigned long)zone.text.len);
    }
    zone_free(&zone);
}

static void show_refused(const uint8_t *presentation, size_t len, uint32_t house, lamphudet_answer refusal)
{
    enum stage stage = stage_of(refusal, presentation, len);

    /* The house does not stand in the presentation, so no caret points at it. */
    if (stage == AFTER_ALL) {
        printf("  house        %lu\n", (unsigned long)house);
    } else {
        show_octets(presentation, len, refusal.value);
    }
    if (stage == GROUP_1 && refusal.number <= LAMPHUDET_REFUSED_DIGIT) {
        show_text_refused(presentation, len, refusal);
    }
    if (stage != AFTER_ALL) {
        printf("  stage        %d, %s\n", (int)stage, stage_words(stage));
    }
    show_refusal(refusal);
}

static enum status read_presentation(const uint8_t *presentation, size_t len, const struct order *order)
{
    struct store kept = { { NULL, 0, 0 }, 0 };
    uint8_t entry[LAMPHUDET_ENTRY_MAX];
    lamphudet_answer answer = lamphudet_read_presentation(order->house, presentation, len, entry, sizeof entry);
    enum status status = SOME_REFUSED;

    show_files(presentation, len);
    if (answer.number == LAMPHUDET_NOT_REFUSED) {
        show_names(presentation, len);
        show_kept(entry, (size_t)answer.value);
        status = store_add(&kept, entry, (size_t)answer.value) ? ALL_ACCEPTED : NOT_DONE;
    } else {
        show_refused(presentation, len, order->house, answer);
    }
    putchar('\n');
    status = store_write(&kept, order->out, status);
    store_free(&kept);
    return status;
}

enum status command_presentation(const struct order *order)
{
    struct octets lent = { NULL, 0, 0 };
    enum status status = input_octets(&lent, order, 1) ? read_presentation(lent.at, lent.len, order) : NOT_DONE;

    octets_free(&lent);
    return status;
}
