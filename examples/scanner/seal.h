/* A seal as the scanner reads and shows it. */
#ifndef SCANNER_SEAL_H
#define SCANNER_SEAL_H

#include "octets.h"
#include "status.h"
#include "store.h"

/*
 * Lends the octets of one seal to the library, and shows what it says: header, record and
 * signature, or the refusal. Where they came through a pipe, one line end behind the seal is not
 * the seal's. The entry of an accepted one is put to those that are kept.
 */
enum status read_seal(const struct octets *given, uint32_t house, int piped, struct store *kept);

#endif
