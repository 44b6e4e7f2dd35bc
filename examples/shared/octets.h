/* Octets that a host holds, and how they come in. */
#ifndef SHARED_OCTETS_H
#define SHARED_OCTETS_H

#include <stddef.h>
#include <stdint.h>

/* Begins as { NULL, 0, 0 }. */
struct octets {
    uint8_t *at;
    size_t len;
    size_t room;
};

/*
 * Puts octets behind those that are there. 0 where memory ran out, which is told on standard error.
 */
int octets_add(struct octets *octets, const void *more, size_t len);

/* Whether no file is named: NULL, or a dash. */
int is_standard(const char *file);

/*
 * All of a file, or of standard input where no file is named. 0 where it could not be read, which
 * is told.
 */
int octets_read(struct octets *octets, const char *file);

/*
 * Makes a file of octets, or writes them to standard output where no file is named. 0 where that
 * failed, which is told.
 */
int octets_write(const char *file, const uint8_t *octets, size_t len);

void octets_free(struct octets *octets);

#endif
