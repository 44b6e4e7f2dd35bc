/*
 * Lamphudet: the calls for a C host.
 *
 * A call is given numbers and ranges of octets; one is given a struct of numbers and characters, by
 * value. Each range is a pointer and a length, and all of it must be readable, or writable where the
 * call writes. Ranges of one call do not overlap. The pointer of an empty range is not read and may be
 * NULL. Any length and any content is answered.
 *
 * A call keeps nothing and shares no state with any other: calls may run on any number of threads
 * at once, as long as no other thread writes to what a call was lent, or reads what it writes,
 * before it returns.
 *
 * A refused call writes nothing. A call that is not refused writes the octets that it reports, from
 * the start of its output, and no others. What a call only reads is never changed.
 *
 * What is left to the host:
 *   - The signature over the security object. Whoever makes up files can make up an object with their
 *     digests: a presentation that is accepted is whole, and who issued it the signature alone says.
 *   - The content of the security object (eContent) is cut out of EF.SOD, which has tag 77 and holds
 *     the signature too. What is lent begins with the content's own tag, 30.
 *   - The expiry is compared with today. A date is six digits, year, month and day, without a century;
 *     of a birth year, month and day may each be fillers.
 *   - A stored run or list needs a check of its own: of the single bits of an entry about half can be
 *     turned over and give another entry.
 *   - A store of entries that were kept before version 0.3.0 is emptied before the first new one goes
 *     in: the layout changed, and an old entry is not always refused. See LAMPHUDET_ENTRY_MAX.
 *
 * What is covered: texts of TD1, TD2 and TD3, alone and in group 1, and of the visas MRV-A and MRV-B,
 * alone; SHA-256 as digest; LDS version 0107 with security object version 0, and 0108 with version 1.
 * Other digests are refused by 13, other versions by 11 and 12, and versions that disagree by 19.
 * Of a group's file, whether its inside is whole; of group 11's the details, each as it stands. What
 * else stands in a file is the host's to read.
 */
#ifndef LAMPHUDET_H
#define LAMPHUDET_H

#include <stddef.h>
#include <stdint.h>

#ifdef __cplusplus
extern "C" {
#endif

/*
 * The version of this header, as a string and as a number for #if: 10000 times the first of its
 * three numbers, 100 times the second, and the third; 0.3.2 is 302. A later version has a greater
 * number. lamphudet_version() is that of the library that was linked.
 *
 * What a version promises:
 *   - The number of a refusal never changes its meaning. There may be new ones.
 *   - An answer that changes is in CHANGELOG.md, which is installed in share/doc/lamphudet, with the
 *     request that asked for it.
 *   - Structs, the entry's layout and how a call is declared change only with a new SONAME, the name
 *     by which a program asks for the shared library: liblamphudet.so.0.3. While the first number is
 *     0 it has the first two, from 1 on the first alone. As long as it is the same a host need not be
 *     compiled again, and entries that were kept are entries.
 */
#define LAMPHUDET_VERSION "0.3.2"
#define LAMPHUDET_VERSION_NUMBER 302

/* The compiler warns where a call's answer is thrown away, if it knows how. */
#if defined(__GNUC__)
#define LAMPHUDET_MUST_USE __attribute__((warn_unused_result))
#else
#define LAMPHUDET_MUST_USE
#endif

/*
 * The archives were compiled for structs laid out as x86-64 Linux lays them out. A host whose compiler
 * does otherwise does not compile. A name tells each assertion apart, for compilers before C11.
 */
#if defined(__cplusplus) && __cplusplus >= 201103L
#define LAMPHUDET_ASSERT(holds, name) static_assert(holds, #name)
#elif defined(__STDC_VERSION__) && __STDC_VERSION__ >= 201112L
#define LAMPHUDET_ASSERT(holds, name) _Static_assert(holds, #name)
#else
#define LAMPHUDET_ASSERT(holds, name) typedef char lamphudet_asserted_##name[(holds) ? 1 : -1]
#endif
#define LAMPHUDET_ASSERT_SIZE(type, octets) LAMPHUDET_ASSERT(sizeof(type) == (octets), size_of_##type)
#define LAMPHUDET_ASSERT_AT(type, field, octet) LAMPHUDET_ASSERT(offsetof(type, field) == (octet), type##_##field)

/*
 * What a call answers.
 *
 * number LAMPHUDET_NOT_REFUSED, which is 0: value is what the call says below.
 * else: the refusal's number, and value is its place, an offset from 0 in what was lent.
 *
 * expected: with refusal 9 the check digit that was worked out, 0 to 9; with every other refusal, and
 * with LAMPHUDET_NOT_REFUSED, LAMPHUDET_NO_DIGIT.
 */
#define LAMPHUDET_NO_DIGIT 255

typedef struct lamphudet_answer {
    uint32_t number;
    uint32_t expected;
    uint64_t value;
} lamphudet_answer;

LAMPHUDET_ASSERT_AT(lamphudet_answer, number, 0);
LAMPHUDET_ASSERT_AT(lamphudet_answer, expected, 4);
LAMPHUDET_ASSERT_AT(lamphudet_answer, value, 8);
LAMPHUDET_ASSERT_SIZE(lamphudet_answer, 16);

/*
 * A stretch of a lent range: the octet at which it starts, counted from 0, and how many octets it
 * has. Where there is none, both are 0.
 */
typedef struct lamphudet_stretch {
    uint64_t start, length;
} lamphudet_stretch;

LAMPHUDET_ASSERT_AT(lamphudet_stretch, start, 0);
LAMPHUDET_ASSERT_AT(lamphudet_stretch, length, 8);
LAMPHUDET_ASSERT_SIZE(lamphudet_stretch, 16);

/*
 * What lamphudet_read_detail answers: where a detail of group 11 stands in its file.
 *
 * number and expected are as in lamphudet_answer, and expected is LAMPHUDET_NO_DIGIT. value is 0, or the
 * refusal's place. With a refusal, and where the file has no such detail, the stretch is 0 and 0.
 */
typedef struct lamphudet_detail {
    uint32_t number, expected;
    uint64_t value;
    lamphudet_stretch stretch; /* the element's value; of the other names all of A0, with tag and length */
} lamphudet_detail;

LAMPHUDET_ASSERT_AT(lamphudet_detail, number, 0);
LAMPHUDET_ASSERT_AT(lamphudet_detail, expected, 4);
LAMPHUDET_ASSERT_AT(lamphudet_detail, value, 8);
LAMPHUDET_ASSERT_AT(lamphudet_detail, stretch, 16);
LAMPHUDET_ASSERT_SIZE(lamphudet_detail, 32);

/* In which of two lent ranges a full name stands. These numbers stay what they are. */
enum lamphudet_name_from {
    LAMPHUDET_NAME_NONE = 0, /* in neither */
    LAMPHUDET_NAME_FILE = 1, /* in the file of group 11 */
    LAMPHUDET_NAME_TEXT = 2  /* in the text */
};

/* What lamphudet_full_name answers: in which range the name stands, and where in it. */
typedef struct lamphudet_name {
    uint32_t from;             /* of enum lamphudet_name_from */
    lamphudet_stretch stretch; /* in that range; 0 and 0 where it is in neither */
} lamphudet_name;

LAMPHUDET_ASSERT_AT(lamphudet_name, from, 0);
LAMPHUDET_ASSERT_AT(lamphudet_name, stretch, 8);
LAMPHUDET_ASSERT_SIZE(lamphudet_name, 24);

/* The forms, each by its code in an entry. These numbers stay what they are. */
enum lamphudet_form {
    LAMPHUDET_TD1 = 0,
    LAMPHUDET_TD2 = 1,
    LAMPHUDET_TD3 = 2,
    LAMPHUDET_MRV_A = 3,
    LAMPHUDET_MRV_B = 4
};

#define LAMPHUDET_HOUSE_MAX 32767 /* the greatest house; the least is 1 */
#define LAMPHUDET_NUMBER_MAX 22   /* characters of the longest document number, of TD1; TD2 14, the others 9 */
#define LAMPHUDET_NAME_MAX 39     /* characters of the longest name, of TD3 and MRV-A; TD1 30, TD2 and MRV-B 31 */
#define LAMPHUDET_DATA_MAX 16     /* characters of the longest data, of MRV-A; TD3 14, TD1 11, MRV-B 8, TD2 7 */

/*
 * What an entry holds. The fields are characters, A-Z, 0-9 and the filler <, and no zero ends them:
 * each fills its array, document_number, name and data with fillers behind their lengths.
 *
 * data is the issuer's own: TD3's personal number, the optional data of TD2 and of visas, and TD1's of
 * the second line; the first line's is in no record. Behind a long document number of TD2 it is what
 * follows the filler there, at most 4 characters, and none where the number has 14. It may begin with
 * fillers and have some inside, and does not end in one; data_len is 0 where there is none.
 */
typedef struct lamphudet_record {
    uint32_t number; /* LAMPHUDET_NOT_REFUSED, or 18 */
    uint32_t house;
    uint8_t form; /* of enum lamphudet_form */
    uint8_t sex;  /* F, M or < */
    uint8_t document_number_len, name_len;
    uint8_t code[2], state[3], nationality[3], birth[6], expiry[6];
    uint8_t document_number[LAMPHUDET_NUMBER_MAX], name[LAMPHUDET_NAME_MAX];
    uint8_t data_len, data[LAMPHUDET_DATA_MAX];
} lamphudet_record;

LAMPHUDET_ASSERT_AT(lamphudet_record, number, 0);
LAMPHUDET_ASSERT_AT(lamphudet_record, house, 4);
LAMPHUDET_ASSERT_AT(lamphudet_record, form, 8);
LAMPHUDET_ASSERT_AT(lamphudet_record, sex, 9);
LAMPHUDET_ASSERT_AT(lamphudet_record, document_number_len, 10);
LAMPHUDET_ASSERT_AT(lamphudet_record, name_len, 11);
LAMPHUDET_ASSERT_AT(lamphudet_record, code, 12);
LAMPHUDET_ASSERT_AT(lamphudet_record, state, 14);
LAMPHUDET_ASSERT_AT(lamphudet_record, nationality, 17);
LAMPHUDET_ASSERT_AT(lamphudet_record, birth, 20);
LAMPHUDET_ASSERT_AT(lamphudet_record, expiry, 26);
LAMPHUDET_ASSERT_AT(lamphudet_record, document_number, 32);
LAMPHUDET_ASSERT_AT(lamphudet_record, name, 54);
LAMPHUDET_ASSERT_AT(lamphudet_record, data_len, 93);
LAMPHUDET_ASSERT_AT(lamphudet_record, data, 94);
LAMPHUDET_ASSERT_SIZE(lamphudet_record, 112);

/*
 * The refusals. These numbers stay what they are.
 *
 *   No.  Cause                                                            Place
 *    1   text not 72, 88 or 90; presentation, digest input or seal over   start of the text; 0
 *        65,535
 *    2   character not A-Z, 0-9, <                                        the first such
 *    3   document code                                                    field start
 *    4   state or nationality                                             field start
 *    5   document number                                                  field start
 *    6   date                                                             field start
 *    7   sex                                                              its place
 *    8   name                                                             field start
 *    9   check digit                                                      the digit
 *   10   encoding                                                         the element's tag, or
 *                                                                         the first octet left over
 *   11   EF.COM content                                                   the element's tag, or
 *                                                                         the octet in the tag list
 *   12   security object content                                          the element's tag
 *   13   digest algorithm                                                 its tag
 *   14   group unlisted, lent before, or without entry; no group 1 lent   file start;
 *                                                                         the presentation's length
 *   15   digest differs                                                   file start
 *   16   lent output too short                                            0
 *   17   house or record not sound; of a call that reads it is the        0
 *        house, since a record that was read is sound; of
 *        lamphudet_write_seal the record, which is not TD2
 *   18   not an entry                                                     start of that entry
 *   19   versions of EF.COM and security object disagree                  the object's tag
 *   20   tag list of group 11, or elements that differ from it            the list's tag; the first
 *                                                                         element that differs, or
 *                                                                         the file's length
 *   21   element too deep in a group's file                               its tag
 *   22   count of templates in a group's file                             7F61, or 0
 *   23   key in a list not above the one before                           start of that entry
 *   24   header field of a seal                                           field start
 *   25   feature wrongly coded or cut off; feature 02 absent, repeated    its tag; where absent FF,
 *        or not 48 octets                                                 or the seal's length
 *   26   C40 of feature 02                                                its tag
 *   27   signature zone missing, wrongly coded, cut off or followed by    FF, or the seal's length
 *        anything
 *   28   header field that version 03 cannot carry, or signature that     0
 *        would take the seal over 65,535 octets
 */
enum lamphudet_refusal {
    LAMPHUDET_NOT_REFUSED = 0,
    LAMPHUDET_REFUSED_LENGTH = 1,
    LAMPHUDET_REFUSED_CHARACTER = 2,
    LAMPHUDET_REFUSED_CODE = 3,
    LAMPHUDET_REFUSED_STATE = 4,
    LAMPHUDET_REFUSED_NUMBER = 5,
    LAMPHUDET_REFUSED_DATE = 6,
    LAMPHUDET_REFUSED_SEX = 7,
    LAMPHUDET_REFUSED_NAME = 8,
    LAMPHUDET_REFUSED_DIGIT = 9,
    LAMPHUDET_REFUSED_ENCODING = 10,
    LAMPHUDET_REFUSED_EF_COM = 11,
    LAMPHUDET_REFUSED_SECURITY_OBJECT = 12,
    LAMPHUDET_REFUSED_ALGORITHM = 13,
    LAMPHUDET_REFUSED_GROUP = 14,
    LAMPHUDET_REFUSED_DIGEST = 15,
    LAMPHUDET_REFUSED_OUTPUT = 16,
    LAMPHUDET_REFUSED_UNSOUND = 17,
    LAMPHUDET_REFUSED_ENTRY = 18,
    LAMPHUDET_REFUSED_VERSIONS = 19,
    LAMPHUDET_REFUSED_DETAILS = 20,
    LAMPHUDET_REFUSED_DEPTH = 21,
    LAMPHUDET_REFUSED_TEMPLATES = 22,
    LAMPHUDET_REFUSED_ORDER = 23,
    LAMPHUDET_REFUSED_SEAL_HEADER = 24,
    LAMPHUDET_REFUSED_SEAL_FEATURE = 25,
    LAMPHUDET_REFUSED_SEAL_TEXT = 26,
    LAMPHUDET_REFUSED_SEAL_SIGNATURE = 27,
    LAMPHUDET_REFUSED_SEAL_INPUT = 28
};

/* An answer's number in words. They end in no full stop, and live as long as the program. */
static inline const char *lamphudet_words(uint32_t number)
{
    switch (number) {
    case LAMPHUDET_NOT_REFUSED: return "not refused";
    case LAMPHUDET_REFUSED_LENGTH: return "text not 72, 88 or 90; presentation, digest input or seal over 65,535";
    case LAMPHUDET_REFUSED_CHARACTER: return "character not A-Z, 0-9, <";
    case LAMPHUDET_REFUSED_CODE: return "document code";
    case LAMPHUDET_REFUSED_STATE: return "state or nationality";
    case LAMPHUDET_REFUSED_NUMBER: return "document number";
    case LAMPHUDET_REFUSED_DATE: return "date";
    case LAMPHUDET_REFUSED_SEX: return "sex";
    case LAMPHUDET_REFUSED_NAME: return "name";
    case LAMPHUDET_REFUSED_DIGIT: return "check digit";
    case LAMPHUDET_REFUSED_ENCODING: return "encoding";
    case LAMPHUDET_REFUSED_EF_COM: return "EF.COM content";
    case LAMPHUDET_REFUSED_SECURITY_OBJECT: return "security object content";
    case LAMPHUDET_REFUSED_ALGORITHM: return "digest algorithm";
    case LAMPHUDET_REFUSED_GROUP: return "group unlisted, lent before, or without entry; no group 1 lent";
    case LAMPHUDET_REFUSED_DIGEST: return "digest differs";
    case LAMPHUDET_REFUSED_OUTPUT: return "lent output too short";
    case LAMPHUDET_REFUSED_UNSOUND: return "house or record not sound";
    case LAMPHUDET_REFUSED_ENTRY: return "not an entry";
    case LAMPHUDET_REFUSED_VERSIONS: return "versions of EF.COM and security object disagree";
    case LAMPHUDET_REFUSED_DETAILS: return "tag list of group 11, or elements that differ from it";
    case LAMPHUDET_REFUSED_DEPTH: return "element too deep in a group's file";
    case LAMPHUDET_REFUSED_TEMPLATES: return "count of templates in a group's file";
    case LAMPHUDET_REFUSED_ORDER: return "key in a list not above the one before";
    case LAMPHUDET_REFUSED_SEAL_HEADER: return "header field of a seal";
    case LAMPHUDET_REFUSED_SEAL_FEATURE:
        return "feature wrongly coded or cut off; feature 02 absent, repeated or not 48 octets";
    case LAMPHUDET_REFUSED_SEAL_TEXT: return "C40 of feature 02";
    case LAMPHUDET_REFUSED_SEAL_SIGNATURE:
        return "signature zone missing, wrongly coded, cut off or followed by anything";
    case LAMPHUDET_REFUSED_SEAL_INPUT:
        return "header field that version 03 cannot carry, or signature that would take the seal over 65,535 octets";
    default: return "not a refusal's number";
    }
}

/* What lamphudet_field is made of. A part of a text: how many characters it has, and what it is. */
typedef struct lamphudet_part {
    uint64_t width;
    const char *words;
} lamphudet_part;

/* The part at a place, of parts that follow each other; one without width ends them, and is what stands behind. */
static inline const char *lamphudet_part_at(const lamphudet_part *parts, uint64_t place)
{
    for (; parts->width > 0 && place >= parts->width; parts++) {
        place -= parts->width;
    }
    return parts->words;
}

/*
 * What stands at a place of a long document number, with < at its check place and its further characters from optional on:
 * NULL where the number is not long, or has no end, or does not reach that place.
 */
static inline const char *lamphudet_long_number_at(const uint8_t *text, uint64_t check, uint64_t optional, uint64_t width,
                                                   uint64_t place)
{
    uint64_t end = optional;

    if (text[check] != '<') {
        return NULL;
    }
    if (place == check) {
        return "filler for the check digit of a long document number";
    }
    while (end < optional + width && text[end] != '<') {
        end++;
    }
    if (end == optional + width || end < optional + 2 || place < optional || place > end) {
        return NULL;
    }
    if (place == end) {
        return "filler behind a long document number";
    }
    return place == end - 1 ? "check digit of the document number" : "document number, further characters";
}

/* The same of every text that is long enough and no visa. TD3 has no long numbers. */
static inline const char *lamphudet_long_number(const uint8_t *text, size_t text_len, uint64_t place)
{
    return text_len == 90 ? lamphudet_long_number_at(text, 14, 15, 15, place)
         : text_len == 72 ? lamphudet_long_number_at(text, 45, 64, 7, place)
                          : NULL;
}

/* Whether a text that stands alone is a visa, MRV-A or MRV-B: 88 or 72 characters that begin with V and a letter or <. */
static inline int lamphudet_is_visa(const uint8_t *text, size_t text_len)
{
    return (text_len == 88 || text_len == 72) && text[0] == 'V' && (text[1] == '<' || (text[1] >= 'A' && text[1] <= 'Z'));
}

/*
 * Which field or check digit of a text a place is, in words, whether the text is accepted or not: "nationality", "check
 * digit of the birth". They end in no full stop, and live as long as the program. "not in a text" where the text has not 72,
 * 88 or 90 characters, or the place is past its end.
 *
 * Of a presentation that was refused by 2 to 9, the text is the file of group 1 (lamphudet_group_file) from its sixth octet
 * on, and its places count from there.
 *
 * Of 88 or 72 characters that begin with V and a letter or < the fields are a visa's, as of a text alone. In group 1 and in
 * a seal no visa may stand: there such a text is read as TD3 or TD2, and the places behind the check digit of the expiry are
 * TD3's or TD2's, and not optional data to the end as told here.
 */
static inline const char *lamphudet_field(const uint8_t *text, size_t text_len, uint64_t place)
{
    static const lamphudet_part td1[] = {
        { 2, "document code" }, { 3, "issuing state" }, { 9, "document number" }, { 1, "check digit of the document number" },
        { 15, "optional data" }, { 6, "birth" }, { 1, "check digit of the birth" }, { 1, "sex" }, { 6, "expiry" },
        { 1, "check digit of the expiry" }, { 3, "nationality" }, { 11, "second optional data" },
        { 1, "composite check digit" }, { 30, "name" }, { 0, "not in a text" },
    };
    static const lamphudet_part td2[] = {
        { 2, "document code" }, { 3, "issuing state" }, { 31, "name" }, { 9, "document number" },
        { 1, "check digit of the document number" }, { 3, "nationality" }, { 6, "birth" }, { 1, "check digit of the birth" },
        { 1, "sex" }, { 6, "expiry" }, { 1, "check digit of the expiry" }, { 7, "optional data" },
        { 1, "composite check digit" }, { 0, "not in a text" },
    };
    static const lamphudet_part td3[] = {
        { 2, "document code" }, { 3, "issuing state" }, { 39, "name" }, { 9, "document number" },
        { 1, "check digit of the document number" }, { 3, "nationality" }, { 6, "birth" }, { 1, "check digit of the birth" },
        { 1, "sex" }, { 6, "expiry" }, { 1, "check digit of the expiry" }, { 14, "personal number" },
        { 1, "check digit of the personal number" }, { 1, "composite check digit" }, { 0, "not in a text" },
    };
    static const lamphudet_part mrva[] = {
        { 2, "document code" }, { 3, "issuing state" }, { 39, "name" }, { 9, "document number" },
        { 1, "check digit of the document number" }, { 3, "nationality" }, { 6, "birth" }, { 1, "check digit of the birth" },
        { 1, "sex" }, { 6, "expiry" }, { 1, "check digit of the expiry" }, { 16, "optional data" }, { 0, "not in a text" },
    };
    static const lamphudet_part mrvb[] = {
        { 2, "document code" }, { 3, "issuing state" }, { 31, "name" }, { 9, "document number" },
        { 1, "check digit of the document number" }, { 3, "nationality" }, { 6, "birth" }, { 1, "check digit of the birth" },
        { 1, "sex" }, { 6, "expiry" }, { 1, "check digit of the expiry" }, { 8, "optional data" }, { 0, "not in a text" },
    };
    const char *of_long_number;

    if (lamphudet_is_visa(text, text_len)) {
        return lamphudet_part_at(text_len == 88 ? mrva : mrvb, place);
    }
    of_long_number = lamphudet_long_number(text, text_len, place);
    if (of_long_number != NULL) {
        return of_long_number;
    }
    switch (text_len) {
    case 90: return lamphudet_part_at(td1, place);
    case 72: return lamphudet_part_at(td2, place);
    case 88: return lamphudet_part_at(td3, place);
    default: return "not in a text";
    }
}

/*
 * An entry is the octets under which a house keeps a record: to be stored, compared and joined to
 * runs as they are. The same house and record always give the same octets, and no others are an
 * entry of them.
 *
 * The first LAMPHUDET_KEY octets of two entries agree exactly when house, form, issuing state,
 * complete document number, birth and expiry agree.
 *
 * memcmp over the shorter of two entries' lengths sorts them by house, then form, issuing state,
 * document number, birth and expiry, characters in the order < 0-9 A-Z; it is 0 for equal entries
 * alone.
 *
 * What it holds is told by lamphudet_open_entry. The bits, the most significant first: house 15,
 * form 3 (TD1 0, TD2 1, TD3 2, MRV-A 3, MRV-B 4), state 18, number 132 (filled up with <), birth 36,
 * expiry 36, which is the key; then code 12, nationality 18, sex 2 (< 0, F 1, M 2), data length 5,
 * data, name length 6, name, and zero bits to the next octet. A character is 6 bits: < 0, digits 1 to
 * 10, letters 11 to 36. With m characters of data and n of the name these are 283 + 6 (m + n) bits.
 *
 * Before version 0.3.0 an entry had no data. Of the entries that were kept then most are refused by 18,
 * and some read as another record: that of a TD3 with the name BDFHJLNBLNPRTV as one with the data
 * 56789AB and the name ABCDEF. So a store of old entries is emptied before the first new one goes in;
 * nothing reads them.
 */
#define LAMPHUDET_ENTRY_MIN 37 /* octets of the shortest entry: a name of one character, and no data */
#define LAMPHUDET_ENTRY_MAX 77 /* octets of the longest entry: MRV-A's longest name and data */
#define LAMPHUDET_KEY 30       /* octets of an entry's key */
#define LAMPHUDET_TEXT_MAX 90  /* characters of the longest text: TD1; TD2 and MRV-B have 72, TD3 and MRV-A 88 */
#define LAMPHUDET_DIGEST 32    /* octets of a digest */

/*
 * A presentation is what was read from a chip: EF.COM, the content of the security object, then
 * group files, joined.
 */
#define LAMPHUDET_PRESENTATION_MAX 65535 /* octets of the longest presentation */
#define LAMPHUDET_FILE_MAX 65539         /* octets of the longest group file: tag, length and 65,535 more */
#define LAMPHUDET_DEPTH_MAX 8            /* how deep elements may stand in a group file, which is 1 itself */

/*
 * Reads the text of a machine readable zone, its lines joined without line ends, and writes the
 * entry of the house and the text's record to the first octets of entry. Answers 0 and how many
 * these are: LAMPHUDET_ENTRY_MIN to LAMPHUDET_ENTRY_MAX.
 *
 * 90 characters are TD1. 72 and 88 that begin with V and a letter or < are the visas MRV-B and MRV-A;
 * all others are TD2 and TD3. A visa's expiry is its valid-until. It has no composite check digit, and
 * no long document number: a < for the number's check digit is a wrong one.
 *
 * Refuses, in this order:
 *   1   at 0: the text has not 72, 88 or 90 characters
 *   2   at the first character that is not A-Z, 0-9 or <
 *   then the first field in the text that breaks its rule:
 *   3   at the start of the document code
 *   4   at the start of the issuing state, or of the nationality
 *   5   at the start of the document number
 *   6   at the start of the birth, or of the expiry
 *   7   at the sex
 *   8   at the start of the name
 *   then:
 *   9   at the first check digit in the text that is wrong, with the digit that was expected there;
 *       TD3's personal check may be 0 or < where the personal number is all fillers
 *   17  at 0: the house is not 1 to 32,767
 *   16  at 0: entry has fewer octets than this entry needs
 */
LAMPHUDET_MUST_USE
lamphudet_answer lamphudet_read_text(uint32_t house, const uint8_t *text, size_t text_len, uint8_t *entry, size_t entry_len);

/*
 * Reads a presentation, and writes the entry of the house and the record of group 1's text to the
 * first octets of entry. Answers 0 and how many these are: LAMPHUDET_ENTRY_MIN to LAMPHUDET_ENTRY_MAX. A text and a
 * presentation with one record give one entry.
 *
 * What is accepted: every lent group is listed in EF.COM, is lent once, and has an entry in the
 * security object with the SHA-256 digest of its whole file; group 1 is lent, and holds exactly a
 * text of TD1, TD2 or TD3 that lamphudet_read_text accepts. EF.COM says 0107 and the object has
 * version 0, or 0108 and the object has version 1 and ends with that and EF.COM's Unicode version.
 * Signatures over the security object are not looked at, nor is the inside of other groups, for which
 * there is lamphudet_look_inside.
 *
 * Refuses, in the order of the stages, and in a stage from left to right: an element's encoding,
 * then its content, then what follows it. Encoding is the tag named, the length in its one shortest
 * form (00 to 7F, 81 80 to FF, 82 01 00 to FF FF), and an end within the element that holds it; 10
 * stands at the tag of the element that fails or should stand there, or at the first octet left
 * over.
 *   Stage 1, size:
 *   1   at 0: the presentation is longer than LAMPHUDET_PRESENTATION_MAX
 *   Stage 2, the outer walk:
 *   10  EF.COM (60), the security object (30) and group files, seen from outside
 *   Stage 3, EF.COM:
 *   10  the version (5F01), the Unicode version (5F36), the tag list (5C), and nothing more
 *   11  at the version unless it is 0107 or 0108, at the Unicode version unless it is six digits
 *   11  in the list: at the first tag that is no group's; then at the first that repeats an earlier
 *       one
 *   Stage 4, the security object:
 *   10  the version (02), the AlgorithmIdentifier (30), the list of entries (30), each of them (30)
 *       a number (02) and a digest (04), in version 1 a sequence (30) of two printable strings (13),
 *       and nothing more
 *   12  at the version unless it is 0 or 1
 *   13  at the AlgorithmIdentifier unless it is one of SHA-256's two spellings
 *   12  at an entry's number unless it is one octet, 1 to 16; at its digest unless it is 32 octets
 *   12  when all entries were read: at the first number that repeats an earlier one; then at the
 *       list where there are fewer than two; what stands behind the list comes after that
 *   19  at the object's tag (30) when all of it was read: the version is 1 and EF.COM's 0107, or 0 and
 *       0108; or the strings are not 0108 and EF.COM's Unicode version, octet by octet
 *   Stage 5, group files, one after another as they are lent:
 *   14  at the file's start: its group is not listed, was lent before, or has no entry
 *   15  at the file's start: its digest is not the one in its entry
 *   Stage 6, group 1:
 *   14  at presentation_len: there is none
 *   10  the text (5F1F), and nothing more
 *   1 to 9, as lamphudet_read_text does, each at its place in the text, counted from the
 *   presentation's start; 9 with the digit that was expected; but a visa is read as TD3 or TD2, and
 *   so is 2 where a character is not A-Z, 0-9 or <, else 3 at the start of the text
 *   Then:
 *   17  at 0: the house is not 1 to 32,767
 *   16  at 0: entry has fewer octets than this entry needs
 */
LAMPHUDET_MUST_USE
lamphudet_answer lamphudet_read_presentation(uint32_t house, const uint8_t *presentation, size_t presentation_len,
                                             uint8_t *entry, size_t entry_len);

/*
 * Finds the file of a group, 1 to 16, in a presentation: the stretch of the lent octets that is the
 * first file with that group's tag, its tag and length included. Writes nothing.
 *
 * Of the stages only 1 and 2 count: what a later stage refuses still has its files, and it is for
 * the host to lend the presentation to lamphudet_read_presentation before it trusts one. There is
 * no stretch, 0 and 0, where stage 1 or 2 refuses the presentation, where no such file is lent, and
 * where the number is no group's; 6 is none's. A stretch that is there has at least two octets.
 */
LAMPHUDET_MUST_USE
lamphudet_stretch lamphudet_group_file(const uint8_t *presentation, size_t presentation_len, uint32_t group);

/*
 * Looks whether a group's file is whole inside: every octet of it belongs to one element. Answers 0 and
 * the number of elements, the file itself counted: 1 to 32,768. Writes nothing.
 *
 * What is lent is one file, as lamphudet_group_file finds it: a face is whole in a presentation where
 *
 *     lamphudet_stretch face = lamphudet_group_file(presentation, presentation_len, 2);
 *     lamphudet_answer whole = lamphudet_look_inside(presentation + face.start, face.length);
 *
 * has the number 0. Whether it is the file that was issued is told by lamphudet_read_presentation.
 *
 * The file is an element, and a constructed element holds elements, one behind another, or nothing. An
 * element is a tag, a length in its one shortest form (00 to 7F, 81 80 to FF, 82 01 00 to FF FF), and so
 * many octets, which end within the element that holds it. A tag is constructed where its first octet's
 * bit of value 32 is set. It has two octets where the low five bits of the first are all ones, and the
 * second is then 00 to 7F. Group 13's inside is the State's own: its file counts as one element, and what
 * stands in it is not looked at. Of every other element that is not constructed the octets are any.
 *
 * Refuses, from left to right, an element before those that it holds:
 *   10  at 0: nothing is lent, or it begins with the tag of no group
 *   10  at an element's tag: it is wrongly coded, cut off, or ends behind the one that holds it
 *   21  there, after 10: it stands deeper than LAMPHUDET_DEPTH_MAX, the file being 1
 *   10  at the first octet behind the file
 *   Then, of the groups 2, 3 and 4:
 *   22  at 0: no template 7F61 stands directly in the file
 *   22  at the first 7F61 that stands directly in the file: it does not open with a count, which is
 *       02 01 n, or the templates 7F60 that stand directly in it are not n, or n is 0 in group 2
 */
LAMPHUDET_MUST_USE
lamphudet_answer lamphudet_look_inside(const uint8_t *file, size_t file_len);

/*
 * Finds one of the passenger's details in the file of group 11, by its tag in Doc 9303-10. Answers 0, the
 * value 0, and the stretch of the lent octets that is the element's value: of the other names the whole
 * element A0 that holds them, with its tag and its length. Writes nothing.
 *
 *     0x5F0E  full name               0x5F15  personal summary
 *     0x5F0F  other names             0x5F16  proof of citizenship, an image
 *     0x5F10  personal number         0x5F17  numbers of other travel documents
 *     0x5F11  place of birth          0x5F18  custody information
 *     0x5F12  telephone               0x5F2B  full date of birth
 *     0x5F13  profession              0x5F42  permanent address
 *     0x5F14  title
 *
 * There is no stretch, 0 and 0, where the file has no such element, and for every other tag, A0 and 5C
 * among them. An element that is there and empty has its own start and the length 0: of the file
 *
 *     6B 07 5C 02 5F 0E 5F 0E 00
 *
 * asked for 0x5F0E it is 9 and 0, and asked for 0x5F10, which is not there, 0 and 0.
 *
 * What is lent is one file, as lamphudet_group_file finds it. It is 6B, which holds the tag list 5C and
 * then the elements that the list names, in its order, and nothing more. The list has the tags above, none
 * of them twice, or none at all, and where it names 5F0F there stands A0. An element is coded as for
 * lamphudet_look_inside. What stands in A0 is not looked at. The answer is the same refusal whichever tag
 * is asked for. Whether it is the file that was issued is told by lamphudet_read_presentation.
 *
 * The octets of a detail are the chip's own, of any length. Doc 9303-10 has national characters in them,
 * which chips write as UTF-8, and nothing of that is looked at here. A host that prints them escapes what
 * is not well formed, and characters that control a terminal or turn the direction of writing, as the desk
 * in examples/ does.
 *
 * Refuses, from left to right:
 *   10  at 0: nothing is lent, it begins with another tag than 6B, or 6B is wrongly coded or cut off
 *   10  behind the head of 6B: another tag than 5C stands there, or nothing
 *   10  at an element's tag in 6B: it is wrongly coded, cut off or ends behind 6B, or the tag is none of
 *       the above and not A0; so is a second 5C
 *   10  at the first octet behind 6B
 *   Then:
 *   20  at 5C: the list has an odd number of octets, a tag that is none of the above, or one twice
 *   20  at the first element that is not the one that the list names in its turn: another one, 5F0F
 *       itself, or one more than it names
 *   20  at file_len: the list names more than there are
 */
LAMPHUDET_MUST_USE
lamphudet_detail lamphudet_read_detail(const uint8_t *file, size_t file_len, uint32_t tag);

/*
 * Finds a passenger's name, as the passenger writes it where the chip has that: in the file of group 11,
 * where lamphudet_read_detail reads it and its full name (5F0E) is there and not empty; else in the text,
 * where lamphudet_read_text would not refuse it by 1 to 9, the name without the fillers behind it; else
 * in neither. Writes nothing, and refuses nothing.
 *
 * Either range may be empty where there is none. The text is that of group 1 or another, visas too; whether
 * the two belong to one passenger is not looked at. A name in the file is octets as those of every detail
 * are, and what is said of them above holds of it; one in the text is A-Z and <, LAMPHUDET_NAME_MAX
 * characters at most.
 *
 *     lamphudet_name name = lamphudet_full_name(file, file_len, text, text_len);
 *     const uint8_t *in = name.from == LAMPHUDET_NAME_FILE ? file : text;
 *
 * has it in the name.stretch.length octets from in + name.stretch.start on.
 */
LAMPHUDET_MUST_USE
lamphudet_name lamphudet_full_name(const uint8_t *file, size_t file_len, const uint8_t *text, size_t text_len);

/*
 * Writes the text of an entry's record to the first octets of text, lines joined, and answers 0 and
 * how many these are: 90 for TD1, 72 for TD2 and MRV-B, 88 for TD3 and MRV-A. The house stands in no
 * text. The data stands in its place, fillers in every optional place that neither it nor a long number
 * needs, and TD3's personal check is the digit of the data: 0 where there is none, also where < stood for
 * it. A text that was read comes back as it was, but for that <, and for what TD1's first line has behind
 * the document number, with the composite check digit over it.
 *
 * Refuses, in this order:
 *   18  at 0: entry is not exactly one entry; none at all, a part of one, or one with anything
 *       behind it
 *   16  at 0: text has fewer octets than this text needs
 */
LAMPHUDET_MUST_USE
lamphudet_answer lamphudet_write_text(const uint8_t *entry, size_t entry_len, uint8_t *text, size_t text_len);

/*
 * Opens an entry: answers 0, its house, and its record field by field. Writes nothing.
 *
 * Refuses:
 *   18  at 0, which is not told: entry is not exactly one entry; none at all, a part of one, or one
 *       with anything behind it. The house is then 0, and the record is the blank one: TD1, fillers
 *       in every field, lengths 0.
 */
LAMPHUDET_MUST_USE
lamphudet_record lamphudet_open_entry(const uint8_t *entry, size_t entry_len);

/*
 * Goes along a run, which is entries joined with nothing between. Answers 0 and the offset behind
 * the entry that begins at offset: the entry is the octets from the one to the other, and the next
 * one begins there. At the end of the run, where offset is run_len, the answer is 0 and 0: none is
 * left. Writes nothing.
 *
 * Refuses:
 *   18  at offset: no entry begins there, or it is cut off, or offset is past the end
 */
LAMPHUDET_MUST_USE
lamphudet_answer lamphudet_next_entry(const uint8_t *run, size_t run_len, uint64_t offset);

/*
 * Looks over a list, which is a run whose keys rise, as a store puts out its entries for the night. Answers
 * 0 and the number of entries, which is 0 for an empty list. Writes nothing.
 *
 * A run is entries in any order, and the same one any number of times; it is read by lamphudet_next_entry.
 * In a list the key of every entry, its first LAMPHUDET_KEY octets, is above the key of the entry before,
 * as memcmp has it: the first octet that differs decides, and octets are 0 to 255. What stands behind the
 * key decides nothing. So equal keys are refused, also where name or data differ: form, issuing state,
 * document number, birth and expiry are then the same, and one passenger was entered twice in one house.
 *
 * Refuses, per entry from the left:
 *   18  at the entry's start: no entry begins there, or it is cut off
 *   23  there, after 18: its key is not above the key of the entry before
 */
LAMPHUDET_MUST_USE
lamphudet_answer lamphudet_look_over(const uint8_t *list, size_t list_len);

/*
 * Finds a house's entries in a list: the stretch of the lent octets that is all of them, in their order, and
 * no other house's. They stand together, since a key begins with the house, and are a list themselves. The
 * stretches of all houses, in the order of houses, are the whole list. Writes nothing.
 *
 * There is no stretch, 0 and 0, where the house has no entry in the list, where lamphudet_look_over refuses
 * the list, and where the number is no house's: 0, or over LAMPHUDET_HOUSE_MAX. To tell an absent house from
 * a refused list the host asks lamphudet_look_over.
 *
 * Each call looks over the whole list, whichever house is asked for. A host that hands its entries to many
 * houses looks the list over once, goes along it by lamphudet_next_entry, and begins another house's where
 * an entry's first fifteen bits, which are the house, change.
 */
LAMPHUDET_MUST_USE
lamphudet_stretch lamphudet_house_entries(const uint8_t *list, size_t list_len, uint32_t house);

/*
 * Writes the SHA-256 digest (FIPS 180-4) of the input to the first 32 octets of digest, and answers
 * 0 and 32.
 *
 * Refuses, in this order:
 *   1   at 0: the input is longer than 65,535 octets
 *   16  at 0: digest has fewer than 32 octets
 */
LAMPHUDET_MUST_USE
lamphudet_answer lamphudet_digest(const uint8_t *input, size_t input_len, uint8_t *digest, size_t digest_len);

/*
 * The version of the library that was linked, as LAMPHUDET_VERSION_NUMBER is that of this header: of a
 * shared library it may be another one, later or earlier. Where it is < LAMPHUDET_VERSION_NUMBER, what
 * CHANGELOG.md has as new or changed since that version is not in the library: a host that relies on
 * it asks first. Refuses nothing.
 */
LAMPHUDET_MUST_USE
uint32_t lamphudet_version(void);

#ifdef __cplusplus
}
#endif

#endif
