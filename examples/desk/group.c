/* desk group: writes out the file of a group, as it stands in a presentation. */
#include "input.h"
#include "show.h"

#include <inttypes.h>
#include <stdio.h>

/*
 * Whether the library accepts the presentation. Where not, that is told on standard error: of the stages only 1 and 2 count
 * for a file, so that one may be handed out all the same, and standard output is for the file.
 */
static enum status judge(const uint8_t *presentation, size_t len)
{
    uint8_t entry[LAMPHUDET_ENTRY_MAX];
    lamphudet_answer answer = lamphudet_read_presentation(1, presentation, len, entry, sizeof entry);

    if (answer.number == LAMPHUDET_NOT_REFUSED) {
        return ALL_ACCEPTED;
    }
    fputs("desk: the presentation is ", stderr);
    put_refusal(stderr, answer);
    return SOME_REFUSED;
}

static enum status hand_out(const uint8_t *presentation, size_t len, const struct order *order)
{
    lamphudet_stretch file = lamphudet_group_file(presentation, len, order->group);
    enum status status = judge(presentation, len);

    if (file.length == 0) {
        fprintf(stderr, "desk: there is no file of group %" PRIu32 "\n", order->group);
        return SOME_REFUSED;
    }
    if (!octets_write(order->out, presentation + file.start, (size_t)file.length)) {
        return NOT_DONE;
    }
    /* Standard output has the file itself where none is named. */
    if (!is_standard(order->out)) {
        show_file(order->group, file);
    }
    return status;
}

enum status command_group(const struct order *order)
{
    struct octets lent = { NULL, 0, 0 };
    enum status status = input_octets(&lent, order, 0) ? hand_out(lent.at, lent.len, order) : NOT_DONE;

    octets_free(&lent);
    return status;
}
