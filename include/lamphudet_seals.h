/*
 * Lamphudet: the calls for a C host that reads seals, as a handheld scanner does, and that writes them.
 *
 * A seal is the octets of the symbol that is printed on an emergency travel document. What
 * lamphudet.h says of every call holds for these: what may be lent, and what is written.
 *
 * Both libraries have one version, LAMPHUDET_VERSION, and what lamphudet.h says that it promises
 * holds here too: the number of a refusal never changes its meaning; an answer that changes is in
 * CHANGELOG.md, with the request that asked for it; structs, the entry's layout and how a call is
 * declared change only with a new SONAME, liblamphudet_seals.so.0.3.
 *
 * What is left to the host: the signature, which signs all octets before its FF, and whom to trust by
 * signer and reference; the dates, none of which is compared with another or with today. Of a seal that
 * is written: to sign it, and to draw the symbol that holds it.
 */
#ifndef LAMPHUDET_SEALS_H
#define LAMPHUDET_SEALS_H

#include <lamphudet.h>

#ifdef __cplusplus
extern "C" {
#endif

#define LAMPHUDET_SEAL_MAX 65535          /* octets of the longest seal */
#define LAMPHUDET_SEAL_REFERENCE_MAX 255 /* characters of the longest certificate reference */

/* A day of the calendar, of the years 1 to 9999. */
typedef struct lamphudet_day {
    uint16_t year;
    uint8_t month, day;
} lamphudet_day;

LAMPHUDET_ASSERT_AT(lamphudet_day, year, 0);
LAMPHUDET_ASSERT_AT(lamphudet_day, month, 2);
LAMPHUDET_ASSERT_AT(lamphudet_day, day, 3);
LAMPHUDET_ASSERT_SIZE(lamphudet_day, 4);

/*
 * What a seal says besides its record, which is in the entry. Country, signer and reference are
 * characters, A-Z, 0-9 and the filler <, and no zero ends them.
 */
typedef struct lamphudet_seal {
    uint32_t number;              /* LAMPHUDET_NOT_REFUSED, or the refusal's */
    uint32_t expected;            /* as in lamphudet_answer */
    uint64_t value;               /* 0: octets of entry written; else the place */
    lamphudet_stretch signature;  /* in the seal */
    lamphudet_day issued, signed_on;
    uint8_t version;              /* the octet: 2 or 3 */
    uint8_t definition, category; /* 0x5E, 3 */
    uint8_t reference_len;
    uint8_t country[3], signer[4];
    uint8_t reference[LAMPHUDET_SEAL_REFERENCE_MAX]; /* fillers behind reference_len */
} lamphudet_seal;

LAMPHUDET_ASSERT_AT(lamphudet_seal, number, 0);
LAMPHUDET_ASSERT_AT(lamphudet_seal, expected, 4);
LAMPHUDET_ASSERT_AT(lamphudet_seal, value, 8);
LAMPHUDET_ASSERT_AT(lamphudet_seal, signature, 16);
LAMPHUDET_ASSERT_AT(lamphudet_seal, issued, 32);
LAMPHUDET_ASSERT_AT(lamphudet_seal, signed_on, 36);
LAMPHUDET_ASSERT_AT(lamphudet_seal, version, 40);
LAMPHUDET_ASSERT_AT(lamphudet_seal, definition, 41);
LAMPHUDET_ASSERT_AT(lamphudet_seal, category, 42);
LAMPHUDET_ASSERT_AT(lamphudet_seal, reference_len, 43);
LAMPHUDET_ASSERT_AT(lamphudet_seal, country, 44);
LAMPHUDET_ASSERT_AT(lamphudet_seal, signer, 47);
LAMPHUDET_ASSERT_AT(lamphudet_seal, reference, 51);
LAMPHUDET_ASSERT_SIZE(lamphudet_seal, 312);

/* A seal's header as it is given to write one: the fields that lamphudet_seal ends with, in the same order. */
typedef struct lamphudet_seal_header {
    lamphudet_day issued, signed_on;
    uint8_t version;              /* 3 */
    uint8_t definition, category; /* 0x5E, 3 */
    uint8_t reference_len;
    uint8_t country[3], signer[4];
    uint8_t reference[LAMPHUDET_SEAL_REFERENCE_MAX]; /* fillers behind reference_len */
} lamphudet_seal_header;

LAMPHUDET_ASSERT_AT(lamphudet_seal_header, issued, 0);
LAMPHUDET_ASSERT_AT(lamphudet_seal_header, signed_on, 4);
LAMPHUDET_ASSERT_AT(lamphudet_seal_header, version, 8);
LAMPHUDET_ASSERT_AT(lamphudet_seal_header, definition, 9);
LAMPHUDET_ASSERT_AT(lamphudet_seal_header, category, 10);
LAMPHUDET_ASSERT_AT(lamphudet_seal_header, reference_len, 11);
LAMPHUDET_ASSERT_AT(lamphudet_seal_header, country, 12);
LAMPHUDET_ASSERT_AT(lamphudet_seal_header, signer, 15);
LAMPHUDET_ASSERT_AT(lamphudet_seal_header, reference, 19);
LAMPHUDET_ASSERT_SIZE(lamphudet_seal_header, 274);

/*
 * Reads a seal, and writes the entry of the house and the record of its text to the first octets of
 * entry. Answers 0, how many these are (LAMPHUDET_ENTRY_MIN to LAMPHUDET_ENTRY_MAX), the header's
 * fields, and where in the seal the signature stands. A text and a seal with one record give one
 * entry. The signature is handed out and not verified.
 *
 * What is accepted, from the first octet on:
 *   header     DC; the version; the country, C40 of three characters; the reference, C40, as below;
 *              the issue date and the signature date, three octets each; the definition, 5E; the
 *              category, 03
 *   features   a tag, a length and a value each, in any order; 02 holds the text, 48 octets of C40
 *              for 72 characters, and stands once; others are passed over; FF is no tag
 *   signature  FF, a length and the signature, which may be empty, and nothing behind it
 * A length has its one shortest form (00 to 7F, 81 80 to FF, 82 01 00 to FF FF). Spaces stand for
 * fillers, and the text is one of TD2 that lamphudet_read_text accepts.
 *
 * The reference names the signer, two letters and two letters or digits, then the certificate, in
 * 0-9 and A-F: with version 02 five of these, 6 octets in all; with version 03 two that say in
 * hexadecimal how many follow, 0 to 255, and then these, 4 octets and 2 more for every three begun.
 *
 * Refuses, in this order:
 *   1   at 0: the seal is longer than LAMPHUDET_SEAL_MAX
 *   24  at the first octet of the first header field that is wrong, cut off or not there: DC at 0,
 *       version at 1, country at 2, reference at 4, and with v octets of reference issue date at
 *       4 + v, signature date at 7 + v, definition at 10 + v, category at 11 + v
 *   25  at the tag of the first feature that is wrongly coded or cut off, or that is feature 02
 *       with other than 48 octets or a second time; then, where there is no feature 02, at FF, or
 *       without one at seal_len
 *   26  at the tag of feature 02: it is not C40 of 72 characters
 *   27  at FF: its length is wrongly coded, the signature is cut off, or anything stands behind it;
 *       at seal_len: there is no FF
 *   3 to 9, as lamphudet_read_text does, but at the tag of feature 02; a text that begins with V,
 *       also that of a visa, is 3 there; 9 with the digit that was expected in the text
 *   17  at 0: the house is not 1 to 32,767
 *   16  at 0: entry has fewer octets than this entry needs
 *
 * A refused seal writes nothing and has a blank header: numbers 0, characters fillers, and no
 * signature, 0 and 0.
 */
LAMPHUDET_MUST_USE
lamphudet_seal lamphudet_read_seal(uint32_t house, const uint8_t *seal, size_t seal_len,
                                   uint8_t *entry, size_t entry_len);

/*
 * Writes the seal of an entry's record, of a header and of a signature to the first octets of seal, in
 * version 03. Answers 0 and how many these are. What is lent is exactly one entry, of TD2; its house is
 * no part of a seal. lamphudet_read_seal reads what was written as that header, that record and that
 * signature, and what differs in one of the three gives other octets.
 *
 * The header has the fields that lamphudet_read_seal hands out, and all of it counts:
 *   version, definition, category   3, 0x5E, 3. What was read from version 02 has 2: a host that writes
 *              it again says 3
 *   country    one to three letters, then fillers
 *   signer     two letters, then two letters or digits
 *   reference  reference_len characters of 0-9 and A-F, then fillers to the end of the array
 *   issued, signed_on   days of the calendar, of the years 1 to 9999
 *
 * What is signed is every octet before FF, and these do not depend on the signature. A host writes with
 * an empty signature (NULL, 0), which gives all that is signed and two octets, FF 00; signs all but
 * these two; and writes again, with the signature. Before FF are 66 octets, and 2 more for every three
 * characters of the reference begun; FF, the length, 1 octet up to 127, 2 up to 255, else 3, and the
 * signature follow.
 *
 * Refuses, in this order, each at 0:
 *   18  entry is not exactly one entry
 *   17  its record is of another form than TD2
 *   28  a header field is not as above, or the signature takes the seal over LAMPHUDET_SEAL_MAX
 *   16  seal has fewer octets than this seal needs
 */
LAMPHUDET_MUST_USE
lamphudet_answer lamphudet_write_seal(const uint8_t *entry, size_t entry_len, lamphudet_seal_header header,
                                      const uint8_t *signature, size_t signature_len, uint8_t *seal,
                                      size_t seal_len);

/*
 * The version of the library for seals that was linked, as LAMPHUDET_VERSION_NUMBER is that of these
 * headers: of a shared library it may be another one, later or earlier, as lamphudet.h has it. Its
 * name is not lamphudet_version: both libraries may be linked into one program.
 */
LAMPHUDET_MUST_USE
uint32_t lamphudet_seals_version(void);

#ifdef __cplusplus
}
#endif

#endif
