/*
 * A host of the installed library: T3 of document 01 is read to an entry of 43 octets that begins as the paper says, is
 * found again as the only entry of a run, is opened to the fields that the text has, and is written back; with a filler for
 * the check of its personal number it has the same entry; what is refused opens to the blank record; a wrong check digit is
 * told with the one that was expected; the visas that Doc 9303-7 prints are read to entries with forms of their own, opened
 * and written back; the issuer's data is kept and written back, in a TD3 and behind a long number of TD2, is in no key, and an
 * entry of before there was data may be read as another record; and every refusal has words of its own. Exit status 0 where
 * all of that is so.
 */
#include "holds.h"

#include <lamphudet.h>
#include <stdio.h>
#include <string.h>

static const char t3[] = "P<UTONORD<<ELIN<<<<<<<<<<<<<<<<<<<<<<<<<<<<<"
                         "K7<<<<<<<1UTO9001158F3006302<<<<<<<<<<<<<<00";

/* With no digit expected. */
static int is(lamphudet_answer answer, uint32_t number, uint64_t value)
{
    return answer.number == number && answer.expected == LAMPHUDET_NO_DIGIT && answer.value == value;
}

static int is_t3(lamphudet_record record)
{
    return record.number == 0 && record.house == 1 && record.form == LAMPHUDET_TD3 && record.sex == 'F'
        && holds(record.code, sizeof record.code, "P") && holds(record.state, sizeof record.state, "UTO")
        && holds(record.nationality, sizeof record.nationality, "UTO")
        && holds(record.birth, sizeof record.birth, "900115") && holds(record.expiry, sizeof record.expiry, "300630")
        && record.document_number_len == 2 && holds(record.document_number, sizeof record.document_number, "K7")
        && record.name_len == 10 && holds(record.name, sizeof record.name, "NORD<<ELIN")
        && record.data_len == 0 && holds(record.data, sizeof record.data, "");
}

static int is_blank(lamphudet_record record)
{
    return record.number == LAMPHUDET_REFUSED_ENTRY && record.house == 0 && record.form == LAMPHUDET_TD1
        && record.sex == '<' && record.document_number_len == 0 && record.name_len == 0 && record.data_len == 0
        && holds(record.code, sizeof record.code, "") && holds(record.state, sizeof record.state, "")
        && holds(record.nationality, sizeof record.nationality, "")
        && holds(record.birth, sizeof record.birth, "") && holds(record.expiry, sizeof record.expiry, "")
        && holds(record.document_number, sizeof record.document_number, "")
        && holds(record.name, sizeof record.name, "") && holds(record.data, sizeof record.data, "");
}

static int accepted(void)
{
    static const uint8_t begins[6] = { 0x00, 0x02, 0x9f, 0x79, 0x95, 0x48 };
    uint8_t given[sizeof t3 - 1];
    uint8_t entry[LAMPHUDET_ENTRY_MAX];
    uint8_t text[LAMPHUDET_TEXT_MAX];

    memcpy(given, t3, sizeof given);
    return is(lamphudet_read_text(1, given, sizeof given, entry, sizeof entry), 0, 43)
        && memcmp(entry, begins, sizeof begins) == 0
        && is(lamphudet_next_entry(entry, 43, 0), 0, 43)
        && is(lamphudet_next_entry(entry, 43, 43), 0, 0)
        && is_t3(lamphudet_open_entry(entry, 43))
        && is_blank(lamphudet_open_entry(entry, 42))
        && is(lamphudet_write_text(entry, 43, text, sizeof text), 0, 88)
        && memcmp(text, given, sizeof given) == 0;
}

static int refused(void)
{
    uint8_t given[sizeof t3 - 1];
    uint8_t entry[LAMPHUDET_ENTRY_MAX] = { 0 };
    uint8_t text[LAMPHUDET_TEXT_MAX];

    memcpy(given, t3, sizeof given);
    return is(lamphudet_read_text(0, given, sizeof given, entry, sizeof entry), LAMPHUDET_REFUSED_UNSOUND, 0)
        && is(lamphudet_read_text(1, given, sizeof given, entry, 42), LAMPHUDET_REFUSED_OUTPUT, 0)
        && is(lamphudet_read_text(1, NULL, 0, NULL, 0), LAMPHUDET_REFUSED_LENGTH, 0)
        && is(lamphudet_write_text(NULL, 0, text, sizeof text), LAMPHUDET_REFUSED_ENTRY, 0)
        && is_blank(lamphudet_open_entry(NULL, 0))
        && is_blank(lamphudet_open_entry(entry, sizeof entry))
        && is(lamphudet_next_entry(entry, sizeof entry, 78), LAMPHUDET_REFUSED_ENTRY, 78)
        && entry[0] == 0;
}

/* T3 with another character at one place. */
static lamphudet_answer read_with(size_t place, char character, uint8_t *entry)
{
    uint8_t given[sizeof t3 - 1];

    memcpy(given, t3, sizeof given);
    given[place] = (uint8_t)character;
    return lamphudet_read_text(1, given, sizeof given, entry, LAMPHUDET_ENTRY_MAX);
}

/* Over T3's personal number, which is all fillers, another may stand for the check digit: the entry is the same. */
static int left_out(void)
{
    uint8_t with_digit[LAMPHUDET_ENTRY_MAX];
    uint8_t with_filler[LAMPHUDET_ENTRY_MAX];

    return is(read_with(86, '0', with_digit), 0, 43) && is(read_with(86, '<', with_filler), 0, 43)
        && memcmp(with_digit, with_filler, 43) == 0;
}

/* A 7 and a letter in the place of each check digit, and a filler in the place of each but that one. */
static int expected(void)
{
    static const struct {
        size_t place;
        uint32_t digit;
        const char *wrong;
    } digits[] = { { 53, 1, "7K<" }, { 63, 8, "7K<" }, { 71, 2, "7K<" }, { 86, 0, "7K" }, { 87, 0, "7K<" } };
    uint8_t entry[LAMPHUDET_ENTRY_MAX];
    const char *wrong;
    size_t at;

    for (at = 0; at < sizeof digits / sizeof digits[0]; at++) {
        for (wrong = digits[at].wrong; *wrong != '\0'; wrong++) {
            lamphudet_answer answer = read_with(digits[at].place, *wrong, entry);

            if (answer.number != LAMPHUDET_REFUSED_DIGIT || answer.expected != digits[at].digit
                || answer.value != digits[at].place) {
                return 0;
            }
        }
    }
    return 1;
}

/* The specimens of Doc 9303-7, each with its data and the octets of its entry: 283 + 6 * (20 + 10) bits, and 283 + 6 * 20. */
static const struct {
    const char *text, *data;
    uint8_t form;
    size_t octets;
} visas[] = {
    { "V<UTOERIKSSON<<ANNA<MARIA<<<<<<<<<<<<<<<<<<<" "L8988901C4XXX4009078F96121096ZE184226B<<<<<<", "6ZE184226B",
      LAMPHUDET_MRV_A, 58 },
    { "V<UTOERIKSSON<<ANNA<MARIA<<<<<<<<<<<" "L8988901C4XXX4009078F9612109<<<<<<<<", "", LAMPHUDET_MRV_B, 51 },
};

/* Data of a record, with fillers behind it. */
static int has_data(const lamphudet_record *record, const char *data)
{
    return record->data_len == strlen(data) && holds(record->data, sizeof record->data, data);
}

static int is_visa(lamphudet_record record, uint8_t form, const char *data)
{
    return record.number == 0 && record.house == 1 && record.form == form && record.sex == 'F'
        && holds(record.code, sizeof record.code, "V") && holds(record.state, sizeof record.state, "UTO")
        && holds(record.nationality, sizeof record.nationality, "XXX")
        && holds(record.birth, sizeof record.birth, "400907") && holds(record.expiry, sizeof record.expiry, "961210")
        && record.document_number_len == 9
        && holds(record.document_number, sizeof record.document_number, "L8988901C")
        && record.name_len == 20 && holds(record.name, sizeof record.name, "ERIKSSON<<ANNA<MARIA")
        && has_data(&record, data);
}

/* Written back as it was. */
static int visa_kept(size_t at)
{
    uint8_t entry[LAMPHUDET_ENTRY_MAX];
    uint8_t text[LAMPHUDET_TEXT_MAX];
    size_t len = strlen(visas[at].text);
    size_t octets = visas[at].octets;
    uint8_t form = visas[at].form;

    return is(lamphudet_read_text(1, (const uint8_t *)visas[at].text, len, entry, sizeof entry), 0, octets)
        && (entry[1] & 1) == form >> 2 && entry[2] >> 6 == (form & 3)
        && is_visa(lamphudet_open_entry(entry, octets), form, visas[at].data)
        && is(lamphudet_write_text(entry, octets, text, sizeof text), 0, len)
        && memcmp(text, visas[at].text, len) == 0;
}

/* A filler for the number's check digit, which is 4, is a wrong one; V and a digit is no document code. */
static int visa_refused(const char *given)
{
    uint8_t entry[LAMPHUDET_ENTRY_MAX];
    uint8_t text[LAMPHUDET_TEXT_MAX];
    size_t len = strlen(given);
    size_t check = len / 2 + 9;
    lamphudet_answer answer;

    memcpy(text, given, len);
    text[check] = '<';
    answer = lamphudet_read_text(1, text, len, entry, sizeof entry);
    text[1] = '0';
    return answer.number == LAMPHUDET_REFUSED_DIGIT && answer.expected == 4 && answer.value == check
        && is(lamphudet_read_text(1, text, len, entry, sizeof entry), LAMPHUDET_REFUSED_CODE, 0);
}

static int of_visas(void)
{
    size_t at;

    for (at = 0; at < sizeof visas / sizeof visas[0]; at++) {
        if (!visa_kept(at) || !visa_refused(visas[at].text)) {
            return 0;
        }
    }
    return 1;
}

/* The specimen of Doc 9303-4 with its personal number, and the long number of Doc 9303-6 with two characters behind it. */
static const struct {
    const char *text, *data;
} issued[] = {
    { "P<UTOERIKSSON<<ANNA<MARIA<<<<<<<<<<<<<<<<<<<" "L898902C36UTO7408122F1204159ZE184226B<<<<<10", "ZE184226B" },
    { "I<UTOSTEVENSON<<PETER<JOHN<<<<<<<<<<" "D23145890<UTO3407127M95071227349<<B5", "<B" },
};

/* The same TD3 with and without its personal number: two entries with one key. */
static int apart(void)
{
    static const char without[] = "P<UTOERIKSSON<<ANNA<MARIA<<<<<<<<<<<<<<<<<<<" "L898902C36UTO7408122F1204159<<<<<<<<<<<<<<08";
    uint8_t one[LAMPHUDET_ENTRY_MAX];
    uint8_t other[LAMPHUDET_ENTRY_MAX];

    return is(lamphudet_read_text(1, (const uint8_t *)issued[0].text, 88, one, sizeof one), 0, 58)
        && is(lamphudet_read_text(1, (const uint8_t *)without, 88, other, sizeof other), 0, 51)
        && memcmp(one, other, LAMPHUDET_KEY) == 0 && memcmp(one, other, 51) != 0;
}

/* An entry as it was before there was data, of T3 with the name BDFHJLNBLNPRTV and house 1. */
static const uint8_t old[46] = {
    0x00, 0x02, 0x9f, 0x79, 0x95, 0x48, 0x00, 0x00, 0x00, 0x00, 0x00, 0x00, 0x00, 0x00, 0x00, 0x00,
    0x00, 0x00, 0x00, 0x00, 0x00, 0x28, 0x10, 0x42, 0x08, 0x61, 0x01, 0x04, 0x71, 0x01, 0x68, 0x07,
    0xde, 0x65, 0x38, 0xc3, 0x90, 0x49, 0x45, 0x98, 0x31, 0x66, 0x1a, 0x71, 0xe8, 0x00,
};

static int of_data(void)
{
    lamphudet_record of_old = lamphudet_open_entry(old, sizeof old);
    int right = apart() && of_old.number == 0 && has_data(&of_old, "56789AB") && holds(of_old.name, sizeof of_old.name, "ABCDEF");
    size_t at;

    for (at = 0; at < sizeof issued / sizeof issued[0]; at++) {
        uint8_t entry[LAMPHUDET_ENTRY_MAX];
        uint8_t text[LAMPHUDET_TEXT_MAX];
        size_t len = strlen(issued[at].text);
        lamphudet_answer answer = lamphudet_read_text(1, (const uint8_t *)issued[at].text, len, entry, sizeof entry);
        lamphudet_record record = lamphudet_open_entry(entry, (size_t)answer.value);

        right = right && answer.number == 0 && has_data(&record, issued[at].data)
             && is(lamphudet_write_text(entry, (size_t)answer.value, text, sizeof text), 0, len)
             && memcmp(text, issued[at].text, len) == 0;
    }
    return right;
}

/* The words of each number are apart from each other, but for numbers that are none, which all have the same. */
static int in_words(void)
{
    const char *none = lamphudet_words(UINT32_MAX);
    uint32_t one;
    uint32_t other;

    for (one = 0; one < 100; one++) {
        for (other = one + 1; other < 100; other++) {
            if (lamphudet_words(one) != none && strcmp(lamphudet_words(one), lamphudet_words(other)) == 0) {
                return 0;
            }
        }
    }
    return strcmp(lamphudet_words(0), none) != 0 && strcmp(lamphudet_words(9), "check digit") == 0
        && lamphudet_words(100) == none;
}

int main(void)
{
    int kept = accepted() && left_out();
    int kept_out = refused() && expected();
    int visas_too = of_visas();
    int data_too = of_data();
    int told = in_words();

    printf("T3 %s, refusals %s, visas %s, data %s, words %s\n", kept ? "kept" : "NOT kept", kept_out ? "right" : "WRONG",
           visas_too ? "right" : "WRONG", data_too ? "right" : "WRONG", told ? "right" : "WRONG");
    return !(kept && kept_out && visas_too && data_too && told);
}
