#include "seal.h"

#include "header.h"
#include "print.h"
#include "record.h"

#include <lamphudet_seals.h>
#include <stdio.h>

/* What was lent, and what the library made of it. */
struct reading {
    const uint8_t *octets;
    size_t len;
    lamphudet_seal seal;
    uint8_t entry[LAMPHUDET_ENTRY_MAX]; /* room for any: a scanner is never refused 16 */
};

static struct reading lend(const uint8_t *octets, size_t len, uint32_t house)
{
    struct reading reading;

    reading.octets = octets;
    reading.len = len;
    reading.seal = lamphudet_read_seal(house, octets, len, reading.entry, sizeof reading.entry);
    return reading;
}

/*
 * dmtxread -n puts a line end behind what it decoded. A seal says itself where it ends, so nothing
 * is guessed here: the line end is left out where a whole seal stands before it, header, features
 * and signature. With it, such a seal is refused for what stands behind the signature; and an octet
 * of a signature that looks like a line end stays, since without it the seal is not whole.
 */
static struct reading lend_piped(const uint8_t *octets, size_t len, uint32_t house)
{
    struct reading whole = lend(octets, len, house);

    if (whole.seal.number == LAMPHUDET_REFUSED_SEAL_SIGNATURE && octets[len - 1] == '\n') {
        struct reading without = lend(octets, len - 1, house);

        if (without.seal.number < LAMPHUDET_REFUSED_SEAL_HEADER) {
            return without;
        }
    }
    return whole;
}

static void show_accepted(const struct reading *reading)
{
    size_t entry_len = (size_t)reading->seal.value;
    lamphudet_record record = lamphudet_open_entry(reading->entry, entry_len);
    lamphudet_seal_header header = header_read(&reading->seal);

    show_header(&header);
    show_record(&record);
    show_hex("entry", reading->entry, entry_len);
    show_signature(reading->octets, reading->seal.signature);
}

static void show_refused(const struct reading *reading, uint32_t house)
{
    lamphudet_answer refusal;

    refusal.number = reading->seal.number;
    refusal.expected = reading->seal.expected;
    refusal.value = reading->seal.value;
    /* The house does not stand in the seal, so no caret points at it. */
    if (refusal.number == LAMPHUDET_REFUSED_UNSOUND) {
        printf("  house        %lu\n", (unsigned long)house);
    } else {
        show_octets(reading->octets, reading->len, refusal.value);
    }
    show_refusal(refusal);
}

enum status read_seal(const struct octets *given, uint32_t house, int piped, struct store *kept)
{
    struct reading reading = (piped ? lend_piped : lend)(given->at, given->len, house);
    enum status status = SOME_REFUSED;

    printf("  octets       %lu\n", (unsigned long)reading.len);
    if (reading.len < given->len) {
        puts("  line end     behind the seal, left out");
    }
    if (reading.seal.number == LAMPHUDET_NOT_REFUSED) {
        show_accepted(&reading);
        status = store_add(kept, reading.entry, (size_t)reading.seal.value) ? ALL_ACCEPTED : NOT_DONE;
    } else {
        show_refused(&reading, house);
    }
    putchar('\n');
    return status;
}
