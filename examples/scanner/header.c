#include "header.h"

#include "print.h"

#include <inttypes.h>
#include <stdio.h>
#include <string.h>

/* Octets in one line. */
#define ROW 32

static void show_day(const char *label, lamphudet_day day)
{
    printf("  %-13s%04u-%02u-%02u\n", label, (unsigned)day.year, (unsigned)day.month,
           (unsigned)day.day);
}

/* They end in no zero. A reference may have none. */
static void show_characters(const char *label, const uint8_t *characters, size_t len)
{
    printf("  %-13s", label);
    put_characters(characters, len);
    puts(len == 0 ? "none" : "");
}

lamphudet_seal_header header_read(const lamphudet_seal *seal)
{
    lamphudet_seal_header header;

    header.issued = seal->issued;
    header.signed_on = seal->signed_on;
    header.version = seal->version;
    header.definition = seal->definition;
    header.category = seal->category;
    header.reference_len = seal->reference_len;
    memcpy(header.country, seal->country, sizeof header.country);
    memcpy(header.signer, seal->signer, sizeof header.signer);
    memcpy(header.reference, seal->reference, sizeof header.reference);
    return header;
}

void show_header(const lamphudet_seal_header *header)
{
    printf("  version      %02x\n", (unsigned)header->version);
    show_characters("country", header->country, sizeof header->country);
    show_characters("signer", header->signer, sizeof header->signer);
    show_characters("reference", header->reference, header->reference_len);
    show_day("issued", header->issued);
    show_day("signed on", header->signed_on);
    printf("  definition   %02x\n", (unsigned)header->definition);
    printf("  category     %02x\n", (unsigned)header->category);
}

void show_rows(const uint8_t *octets, size_t len)
{
    size_t at;

    for (at = 0; at < len; at += ROW) {
        show_hex("", octets + at, len - at < ROW ? len - at : ROW);
    }
}

void show_signature(const uint8_t *seal, lamphudet_stretch signature)
{
    printf("  signature    %" PRIu64 " octets from %" PRIu64 "\n", signature.length,
           signature.start);
    show_rows(seal + signature.start, (size_t)signature.length);
}
