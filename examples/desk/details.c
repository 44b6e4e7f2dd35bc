/* desk details: reads the file of group 11, and shows the details that it has by their names, or its refusal. */
#include "detail.h"
#include "input.h"
#include "show.h"

#include <stdio.h>

static enum status read_details(const uint8_t *file, size_t len)
{
    lamphudet_answer answer = details_answer(file, len);

    printf("  octets       %lu\n", (unsigned long)len);
    if (answer.number == LAMPHUDET_NOT_REFUSED) {
        show_details(file, len, 2);
        printf("  details: %lu\n", (unsigned long)details_count(file, len));
    } else {
        show_octets(file, len, answer.value);
        show_refusal(answer);
    }
    putchar('\n');
    return answer.number == LAMPHUDET_NOT_REFUSED ? ALL_ACCEPTED : SOME_REFUSED;
}

enum status command_details(const struct order *order)
{
    struct octets file = { NULL, 0, 0 };
    enum status status = input_octets(&file, order, 1) ? read_details(file.at, file.len) : NOT_DONE;

    octets_free(&file);
    return status;
}
