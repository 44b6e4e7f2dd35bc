/*
 * A host of both installed libraries that writes a seal: what was read of the seal that source document 002 prints is written
 * again in version 03, first without a signature, then with one over all that goes before FF; it is read back as what was
 * given, and another field gives other octets. What is refused writes nothing. The header goes in by value. Exit status 0
 * where all of that is so.
 */
#include <lamphudet_seals.h>
#include <stdio.h>
#include <string.h>

/* A field that is written stands where it stands of a seal that was read, from issued on. */
#define SAME_ORDER(field) \
    LAMPHUDET_ASSERT(offsetof(lamphudet_seal, field) == 32 + offsetof(lamphudet_seal_header, field), same_order_##field)
SAME_ORDER(issued);
SAME_ORDER(signed_on);
SAME_ORDER(version);
SAME_ORDER(definition);
SAME_ORDER(category);
SAME_ORDER(reference_len);
SAME_ORDER(country);
SAME_ORDER(signer);
SAME_ORDER(reference);

/* Header and message of section 8 in version 03, which counts its reference, and FF 00 behind them. */
static const uint8_t printed[72] = {
    0xdc, 0x03, 0xd9, 0xc5, 0xd9, 0xad, 0x1f, 0xea, 0x79, 0xc7, 0x79, 0xb9, 0x7b, 0x52, 0x60, 0x7b, 0x79, 0x67,
    0x5e, 0x03, 0x02, 0x30, 0x8a, 0x1b, 0xd2, 0xb3, 0xc5, 0x49, 0xcd, 0x1d, 0xa9, 0x3c, 0x5b, 0xd4, 0x58, 0x13,
    0x5c, 0x6f, 0x57, 0xfc, 0x13, 0x3c, 0x13, 0x3c, 0x13, 0x3c, 0x6b, 0x38, 0x20, 0x8a, 0x4d, 0x0d, 0x4a, 0x32,
    0xb0, 0xc1, 0x1a, 0xe6, 0x26, 0x84, 0x20, 0x35, 0x32, 0xd2, 0x51, 0xbc, 0x13, 0x3c, 0x13, 0x43, 0xff, 0x00,
};
static const char text[] = "I<UTOERIKSSON<<ANNA<MARIA<<<<<<<<<<<"
                           "D231458907UTO7408122F1204159<<<<<<<6";
static const char passport[] = "P<UTOERIKSSON<<ANNA<MARIA<<<<<<<<<<<<<<<<<<<"
                               "L898902C36UTO7408122F1204159ZE184226B<<<<<10";

enum { UNSIGNED = 72, SIGNED = 70, SIGNATURE = 64, ALL = 136 };

/* An entry that was read from a text. */
struct kept {
    uint8_t octets[LAMPHUDET_ENTRY_MAX];
    size_t len;
};

static struct kept keep(uint32_t house, const char *characters)
{
    struct kept kept = { { 0 }, 0 };
    uint8_t given[88];
    size_t len = strlen(characters);

    memcpy(given, characters, len);
    kept.len = (size_t)lamphudet_read_text(house, given, len, kept.octets, sizeof kept.octets).value;
    return kept;
}

static lamphudet_seal_header header_of_papers(void)
{
    lamphudet_seal_header header;

    memset(&header, '<', sizeof header);
    header.version = 3;
    header.definition = 0x5e;
    header.category = 3;
    header.issued.year = 2016;
    header.issued.month = header.issued.day = 8;
    header.signed_on.year = 2007;
    header.signed_on.month = 8;
    header.signed_on.day = 9;
    header.reference_len = 5;
    memcpy(header.country, "UTO", 3);
    memcpy(header.signer, "UT01", 4);
    memcpy(header.reference, "FFAFF", 5);
    return header;
}

/* The header of a seal that was read, as a writer takes it. */
static lamphudet_seal_header header_read(const lamphudet_seal *seal)
{
    lamphudet_seal_header header;

    header.issued = seal->issued;
    header.signed_on = seal->signed_on;
    header.version = seal->version;
    header.definition = seal->definition;
    header.category = seal->category;
    header.reference_len = seal->reference_len;
    memcpy(header.country, seal->country, sizeof header.country);
    memcpy(header.signer, seal->signer, sizeof header.signer);
    memcpy(header.reference, seal->reference, sizeof header.reference);
    return header;
}

/* Stands for a signature: it depends on every octet that is signed. */
static void sign(const uint8_t *octets, size_t len, uint8_t *signature)
{
    size_t at;

    memset(signature, 7, SIGNATURE);
    for (at = 0; at < len; at++) {
        signature[at % SIGNATURE] = (uint8_t)(31 * signature[at % SIGNATURE] + octets[at]);
    }
}

/* Written without a signature, signed, written with it, and read back. The octet behind stays. */
static int written(void)
{
    struct kept crew = keep(258, text);
    lamphudet_seal_header header = header_of_papers();
    lamphudet_seal_header before = header;
    uint8_t signature[SIGNATURE];
    uint8_t seal[ALL + 1] = { 0 };
    uint8_t entry[LAMPHUDET_ENTRY_MAX];
    lamphudet_answer answer = lamphudet_write_seal(crew.octets, crew.len, header, NULL, 0, seal, sizeof seal);
    int right = answer.number == 0 && answer.value == UNSIGNED && memcmp(seal, printed, UNSIGNED) == 0;
    lamphudet_seal read;
    lamphudet_seal_header again;

    sign(seal, SIGNED, signature);
    seal[ALL] = 0x5a;
    answer = lamphudet_write_seal(crew.octets, crew.len, header, signature, SIGNATURE, seal, ALL);
    read = lamphudet_read_seal(258, seal, ALL, entry, sizeof entry);
    again = header_read(&read);
    return right && answer.number == 0 && answer.value == ALL && answer.expected == LAMPHUDET_NO_DIGIT
        && memcmp(seal, printed, SIGNED) == 0 && seal[ALL] == 0x5a && read.number == 0
        && memcmp(&again, &header, sizeof header) == 0 && memcmp(&header, &before, sizeof header) == 0
        && read.value == crew.len && memcmp(entry, crew.octets, crew.len) == 0
        && read.signature.start == ALL - SIGNATURE && read.signature.length == SIGNATURE
        && memcmp(seal + read.signature.start, signature, SIGNATURE) == 0;
}

/* Another header, of which the last octet counts too, and another house. */
static int told_apart(void)
{
    struct kept crew = keep(258, text);
    struct kept elsewhere = keep(1, text);
    lamphudet_seal_header header = header_of_papers();
    uint8_t seal[300];

    memset(header.reference, 'F', sizeof header.reference);
    header.reference_len = 255;
    header.reference[254] = '0';
    return lamphudet_write_seal(crew.octets, crew.len, header, NULL, 0, seal, sizeof seal).value == 238
        && lamphudet_read_seal(1, seal, 238, NULL, 0).number == LAMPHUDET_REFUSED_OUTPUT
        && memcmp(seal, printed, 6) == 0 && memcmp(seal + 6, printed + 6, 6) != 0
        && lamphudet_write_seal(elsewhere.octets, elsewhere.len, header_of_papers(), NULL, 0, seal, sizeof seal).value == UNSIGNED
        && memcmp(seal, printed, UNSIGNED) == 0;
}

static int is_refused(lamphudet_answer answer, uint32_t number)
{
    return answer.number == number && answer.expected == LAMPHUDET_NO_DIGIT && answer.value == 0;
}

static int refused(void)
{
    static uint8_t long_one[LAMPHUDET_SEAL_MAX];
    struct kept crew = keep(1, text);
    struct kept other = keep(1, passport);
    lamphudet_seal_header header = header_of_papers();
    lamphudet_seal_header older = header;
    uint8_t seal[ALL] = { 0 };
    const uint8_t *end = seal + sizeof seal;
    uint8_t *at = seal;
    int right;

    older.version = 2;
    right = is_refused(lamphudet_write_seal(NULL, 0, older, long_one, sizeof long_one, NULL, 0), LAMPHUDET_REFUSED_ENTRY)
         && is_refused(lamphudet_write_seal(other.octets, other.len, older, long_one, sizeof long_one, NULL, 0),
                       LAMPHUDET_REFUSED_UNSOUND)
         && is_refused(lamphudet_write_seal(crew.octets, crew.len, older, NULL, 0, NULL, 0), LAMPHUDET_REFUSED_SEAL_INPUT)
         && is_refused(lamphudet_write_seal(crew.octets, crew.len, header, long_one, sizeof long_one, seal, sizeof seal),
                       LAMPHUDET_REFUSED_SEAL_INPUT)
         && is_refused(lamphudet_write_seal(crew.octets, crew.len, header, NULL, 0, seal, UNSIGNED - 1),
                       LAMPHUDET_REFUSED_OUTPUT);
    header.reference[254] = '0';
    right = right && is_refused(lamphudet_write_seal(crew.octets, crew.len, header, NULL, 0, seal, sizeof seal),
                                LAMPHUDET_REFUSED_SEAL_INPUT);
    while (at < end && *at == 0) {
        at++;
    }
    return right && at == end;
}

int main(void)
{
    int back = written();
    int apart = told_apart();
    int kept_out = refused();

    printf("seal %s, others %s, refusals %s\n", back ? "written and read back" : "NOT written and read back",
           apart ? "told apart" : "NOT told apart", kept_out ? "right" : "WRONG");
    return !(back && apart && kept_out);
}
