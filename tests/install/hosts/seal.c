/*
 * A host of both installed libraries: the seal that source document 002 prints, with version octet 02 and a signature behind
 * it, is read to its header's fields and to the entry that its text alone has; what is refused writes nothing and has a blank
 * header; a wrong check digit is told with the one that was expected. Exit status 0 where all of that is so.
 */
#include "holds.h"

#include <lamphudet_seals.h>
#include <stdio.h>
#include <string.h>

/* Header and message of section 8, up to FF; a signature of sixty-four octets behind it. */
static const uint8_t printed[68] = {
    0xdc, 0x02, 0xd9, 0xc5, 0xd9, 0xad, 0x22, 0x4c, 0x5a, 0x8c, 0x7b, 0x52, 0x60, 0x7b, 0x79, 0x67, 0x5e,
    0x03, 0x02, 0x30, 0x8a, 0x1b, 0xd2, 0xb3, 0xc5, 0x49, 0xcd, 0x1d, 0xa9, 0x3c, 0x5b, 0xd4, 0x58, 0x13,
    0x5c, 0x6f, 0x57, 0xfc, 0x13, 0x3c, 0x13, 0x3c, 0x13, 0x3c, 0x6b, 0x38, 0x20, 0x8a, 0x4d, 0x0d, 0x4a,
    0x32, 0xb0, 0xc1, 0x1a, 0xe6, 0x26, 0x84, 0x20, 0x35, 0x32, 0xd2, 0x51, 0xbc, 0x13, 0x3c, 0x13, 0x43,
};
static const char text[] = "I<UTOERIKSSON<<ANNA<MARIA<<<<<<<<<<<"
                           "D231458907UTO7408122F1204159<<<<<<<6";

/* Where things stand in it, and all of it. */
enum { TEXT = 18, ZONE = 68, SIGNATURE = 70, ALL = 134, ENTRY = 51 };

static void put_together(uint8_t *made)
{
    memcpy(made, printed, sizeof printed);
    made[ZONE] = 0xff;
    made[ZONE + 1] = 0x40;
    memset(made + SIGNATURE, 7, ALL - SIGNATURE);
}

static int is_day(lamphudet_day day, int year, int month, int of_month)
{
    return day.year == year && day.month == month && day.day == of_month;
}

static int is_printed(const lamphudet_seal *seal)
{
    return seal->version == 2 && seal->definition == 0x5e && seal->category == 3
        && is_day(seal->issued, 2016, 8, 8) && is_day(seal->signed_on, 2007, 8, 9)
        && holds(seal->country, sizeof seal->country, "UTO") && holds(seal->signer, sizeof seal->signer, "UT01")
        && seal->reference_len == 5 && holds(seal->reference, sizeof seal->reference, "FFAFF")
        && seal->signature.start == SIGNATURE && seal->signature.length == ALL - SIGNATURE;
}

/* Its text read alone gives the same entry, which the other archive opens. */
static int accepted(const uint8_t *made)
{
    uint8_t entry[LAMPHUDET_ENTRY_MAX];
    uint8_t same[LAMPHUDET_ENTRY_MAX];
    uint8_t given[sizeof text - 1];
    lamphudet_seal seal = lamphudet_read_seal(1, made, ALL, entry, sizeof entry);
    lamphudet_answer answer;

    memcpy(given, text, sizeof given);
    answer = lamphudet_read_text(1, given, sizeof given, same, sizeof same);
    return seal.number == 0 && seal.expected == LAMPHUDET_NO_DIGIT && seal.value == ENTRY && is_printed(&seal)
        && answer.number == 0 && answer.value == ENTRY && memcmp(entry, same, ENTRY) == 0
        && holds(lamphudet_open_entry(entry, ENTRY).name, 20, "ERIKSSON<<ANNA<MARIA");
}

static int is_refused_with(lamphudet_seal seal, uint32_t number, uint32_t expected, uint64_t place)
{
    return seal.number == number && seal.expected == expected && seal.value == place && seal.version == 0
        && seal.definition == 0 && seal.category == 0 && is_day(seal.issued, 0, 0, 0)
        && is_day(seal.signed_on, 0, 0, 0)
        && holds(seal.country, sizeof seal.country, "") && holds(seal.signer, sizeof seal.signer, "")
        && seal.reference_len == 0 && holds(seal.reference, sizeof seal.reference, "")
        && seal.signature.start == 0 && seal.signature.length == 0;
}

static int is_refused(lamphudet_seal seal, uint32_t number, uint64_t place)
{
    return is_refused_with(seal, number, LAMPHUDET_NO_DIGIT, place);
}

static int refused(uint8_t *made)
{
    static uint8_t long_one[LAMPHUDET_SEAL_MAX + 1];
    uint8_t entry[LAMPHUDET_ENTRY_MAX] = { 0 };
    const uint8_t *end = entry + sizeof entry;
    uint8_t *at = entry;
    int right = is_refused(lamphudet_read_seal(1, NULL, 0, NULL, 0), LAMPHUDET_REFUSED_SEAL_HEADER, 0)
             && is_refused(lamphudet_read_seal(1, long_one, sizeof long_one, entry, sizeof entry), LAMPHUDET_REFUSED_LENGTH, 0)
             && is_refused(lamphudet_read_seal(1, made, TEXT, entry, sizeof entry), LAMPHUDET_REFUSED_SEAL_FEATURE, TEXT)
             && is_refused(lamphudet_read_seal(1, made, ZONE, entry, sizeof entry), LAMPHUDET_REFUSED_SEAL_SIGNATURE, ZONE)
             && is_refused(lamphudet_read_seal(0, made, ALL, entry, 0), LAMPHUDET_REFUSED_UNSOUND, 0)
             && is_refused(lamphudet_read_seal(1, made, ALL, entry, ENTRY - 1), LAMPHUDET_REFUSED_OUTPUT, 0);

    /* The text ends in 5, and not in 6. */
    made[ZONE - 1]--;
    right = right && is_refused_with(lamphudet_read_seal(1, made, ALL, entry, sizeof entry), LAMPHUDET_REFUSED_DIGIT, 6, TEXT);
    made[TEXT + 2] = 0xff;
    right = right && is_refused(lamphudet_read_seal(1, made, ALL, entry, sizeof entry), LAMPHUDET_REFUSED_SEAL_TEXT, TEXT);
    while (at < end && *at == 0) {
        at++;
    }
    return right && at == end;
}

int main(void)
{
    uint8_t made[ALL];
    int kept;
    int kept_out;

    put_together(made);
    kept = accepted(made);
    kept_out = refused(made);
    printf("seal %s, refusals %s\n", kept ? "kept" : "NOT kept", kept_out ? "right" : "WRONG");
    return !(kept && kept_out);
}
