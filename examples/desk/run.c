/* desk run: lists the entries of a run, house and record, up to its end or to the place where it is none. */
#include "input.h"
#include "record.h"
#include "show.h"

#include <stdio.h>

static enum status list(const uint8_t *run, size_t len)
{
    uint64_t offset = 0;
    unsigned long entries = 0;
    lamphudet_answer next = lamphudet_next_entry(run, len, offset);

    /* At the end of the run the next offset is 0, which is behind no entry. */
    for (; next.number == LAMPHUDET_NOT_REFUSED && next.value != 0; next = lamphudet_next_entry(run, len, offset)) {
        lamphudet_record record = lamphudet_open_entry(run + offset, (size_t)(next.value - offset));

        if (entries == 0) {
            show_heading();
        }
        show_row(offset, &record);
        offset = next.value;
        entries++;
    }
    printf("  entries: %lu\n", entries);
    if (next.number != LAMPHUDET_NOT_REFUSED) {
        show_octets(run, len, next.value);
        show_refusal(next);
    }
    putchar('\n');
    return next.number == LAMPHUDET_NOT_REFUSED ? ALL_ACCEPTED : SOME_REFUSED;
}

enum status command_run(const struct order *order)
{
    struct octets run = { NULL, 0, 0 };
    enum status status = input_octets(&run, order, 1) ? list(run.at, run.len) : NOT_DONE;

    octets_free(&run);
    return status;
}
