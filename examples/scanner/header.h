/* What a seal says besides its record, and octets of it. */
#ifndef SCANNER_HEADER_H
#define SCANNER_HEADER_H

#include <lamphudet_seals.h>

/* The header of a seal that was read, as a writer takes it. */
lamphudet_seal_header header_read(const lamphudet_seal *seal);

/* Field by field. */
void show_header(const lamphudet_seal_header *header);

/* Octets in hex, in rows that stand where a value does. */
void show_rows(const uint8_t *octets, size_t len);

/* Where it stands in the seal, and its octets in hex. */
void show_signature(const uint8_t *seal, lamphudet_stretch signature);

#endif
