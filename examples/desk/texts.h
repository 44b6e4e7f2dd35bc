/* The texts that a file has, as people write them down. */
#ifndef DESK_TEXTS_H
#define DESK_TEXTS_H

#include <stddef.h>

/* A text as it was given, and the line of the file in which it begins; 0 for one on the command line. */
struct given {
    const char *at;
    size_t len;
    size_t line;
};

size_t given_lines(struct given given);

struct reading;

/*
 * Has each text of a file read, and shows the remarks between them. Lines that no empty line or remark
 * parts are one text, unless each of several has as many characters as a text: then each is one, since
 * no form has a line of so many. A file without any has a text of no characters, and the library says
 * what it thinks of that.
 */
void texts_of_file(const char *file, size_t len, void (*read)(struct given text, struct reading *reading),
                   struct reading *reading);

#endif
