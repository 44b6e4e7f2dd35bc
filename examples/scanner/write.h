/* A seal as the scanner writes it. */
#ifndef SCANNER_WRITE_H
#define SCANNER_WRITE_H

#include "octets.h"
#include "status.h"

#include <lamphudet_seals.h>

/*
 * Takes the header of a seal, as it was read. SOME_REFUSED where the seal is refused, which is shown.
 */
enum status header_of(const struct octets *seal, lamphudet_seal_header *header);

/*
 * Lends an entry, a header and a signature to the library, and shows them and the seal that they are, or
 * the refusal. Where a file is named, it is made of the seal's octets.
 */
enum status write_seal(const struct octets *entry, lamphudet_seal_header header, const struct octets *signature,
                       const char *file);

#endif
