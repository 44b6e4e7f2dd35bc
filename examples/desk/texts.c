#include "texts.h"

#include "lines.h"
#include "print.h"
#include "zone.h"

/* Each line but the last has its line end. */
size_t given_lines(struct given given)
{
    size_t lines = 0;
    size_t at;

    for (at = 0; at < given.len; at += line_len(given.at + at, given.len - at) + 1) {
        lines++;
    }
    return lines;
}

/* The line at a place in them. */
static struct given line_at(struct given lines, size_t at)
{
    struct given line = lines;

    line.at = lines.at + at;
    line.len = line_len(line.at, lines.len - at);
    return line;
}

/* Whether each of several lines is a text. */
static int is_one_to_a_line(struct given lines)
{
    size_t at = 0;

    while (at < lines.len && zone_is_whole(lines.at + at, line_at(lines, at).len)) {
        at += line_at(lines, at).len + 1;
    }
    return at >= lines.len && given_lines(lines) > 1;
}

static void read_lines(struct given lines, void (*read)(struct given text, struct reading *reading),
                       struct reading *reading)
{
    size_t at = 0;

    if (!is_one_to_a_line(lines)) {
        read(lines, reading);
        return;
    }
    for (; at < lines.len; lines.line++) {
        read(line_at(lines, at), reading);
        at += line_at(lines, at).len + 1;
    }
}

void texts_of_file(const char *file, size_t len, void (*read)(struct given text, struct reading *reading),
                   struct reading *reading)
{
    struct given lines = { file, 0, 1 }; /* those that are being gathered */
    size_t texts = 0;
    size_t number = 1;
    size_t line;
    size_t at;

    for (at = 0; at < len; at += line + 1, number++) {
        int remark = is_remark(file + at);

        line = line_len(file + at, len - at);
        if (!remark && !is_empty(file + at, line)) {
            lines.at = lines.len == 0 ? file + at : lines.at;
            lines.line = lines.len == 0 ? number : lines.line;
            lines.len = (size_t)(file + at + line - lines.at);
            continue;
        }
        if (lines.len > 0) {
            read_lines(lines, read, reading);
            texts++;
        }
        if (remark) {
            show_remark(file + at, line);
        }
        lines.len = 0;
    }
    if (lines.len > 0 || texts == 0) {
        read_lines(lines, read, reading);
    }
}
