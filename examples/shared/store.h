/* The entries that a host has accepted: a run, to be kept in a file. */
#ifndef SHARED_STORE_H
#define SHARED_STORE_H

#include "octets.h"
#include "status.h"

/* Begins as { { NULL, 0, 0 }, 0 }. */
struct store {
    struct octets run;
    unsigned long entries;
};

/* Whether what --out names will do: a file, or none at all. 0 where it is standard output, which is told. */
int is_place_of_store(const char *out);

/* Puts an entry behind those that are there. 0 where memory ran out, which is told. */
int store_add(struct store *store, const uint8_t *entry, size_t len);

/*
 * Makes a file of the run, where one is named, and tells how many entries it has: also none, which is
 * the empty run. What is NOT_DONE has no run to be kept: what the file had before stays. Gives the
 * status, or NOT_DONE where the file cannot be written, which is told.
 */
enum status store_write(const struct store *store, const char *file, enum status status);

void store_free(struct store *store);

#endif
