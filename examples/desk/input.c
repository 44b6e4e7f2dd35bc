#include "input.h"

#include "hex.h"
#include "hex_file.h"

#include <string.h>

static int read_operands(struct octets *octets, char **operands, int count)
{
    struct hex hex = { { NULL, 0, 0 }, -1 };
    struct hex_place place = { NULL, "HEX", 0 };
    int whole = 1;
    int at;

    for (at = 0; at < count && whole; at++) {
        place.part_number++;
        whole = hex_add(&hex, operands[at], strlen(operands[at]), place);
    }
    *octets = hex.octets;
    return whole && hex_is_whole(&hex, place);
}

int input_octets(struct octets *octets, const struct order *order, int show_remarks)
{
    if (order->hex != NULL) {
        return hex_file_read(octets, order->hex, show_remarks);
    }
    if (order->operand_count > 0) {
        return read_operands(octets, order->operands, order->operand_count);
    }
    return octets_read(octets, order->file);
}
