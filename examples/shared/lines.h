/* The lines of a file. */
#ifndef SHARED_LINES_H
#define SHARED_LINES_H

#include <stddef.h>

/* The characters before the line end, or all that are left. */
size_t line_len(const char *line, size_t left);

/* A line that a host shows and does not read. Given at least one character. */
int is_remark(const char *line);

/* Nothing but blanks. */
int is_empty(const char *line, size_t len);

#endif
