#include "lines.h"

#include <string.h>

size_t line_len(const char *line, size_t left)
{
    const char *end = memchr(line, '\n', left);

    return end == NULL ? left : (size_t)(end - line);
}

int is_remark(const char *line)
{
    return line[0] == '#';
}

int is_empty(const char *line, size_t len)
{
    size_t at = 0;

    while (at < len && (line[at] == ' ' || line[at] == '\t' || line[at] == '\r')) {
        at++;
    }
    return at == len;
}
