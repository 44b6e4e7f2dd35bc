#include "hex_file.h"

#include "hex.h"
#include "lines.h"
#include "print.h"

/* The octets of all lines that are no remarks. */
static int read_lines(struct hex *hex, const struct octets *given, struct hex_place place, int show_remarks)
{
    const char *text = (const char *)given->at;
    struct hex_place last = place;
    size_t at;
    size_t line;

    for (at = 0; at < given->len; at += line + 1) {
        line = line_len(text + at, given->len - at);
        place.part_number++;
        if (!is_remark(text + at)) {
            last = place;
            if (!hex_add(hex, text + at, line, place)) {
                return 0;
            }
        } else if (show_remarks) {
            show_remark(text + at, line);
        }
    }
    return hex_is_whole(hex, last);
}

int hex_file_read(struct octets *octets, const char *file, int show_remarks)
{
    struct octets given = { NULL, 0, 0 };
    struct hex hex = { { NULL, 0, 0 }, -1 };
    struct hex_place start = { NULL, "line", 0 };
    int gathered;

    start.of = is_standard(file) ? "standard input" : file;
    gathered = octets_read(&given, file) && read_lines(&hex, &given, start, show_remarks);
    octets_free(&given);
    *octets = hex.octets;
    return gathered;
}
