/*
 * A host of the installed library: finds the details in files of group 11, among them the one that Doc 9303-10 prints in A.5 with
 * the telephone as its text has it; tells an empty one from one that is not there; is refused by each number at each of its
 * places; and finds the full name in the file, in the text, and in neither. Exit status 0 where all of that is so.
 */
#include <lamphudet.h>
#include <stdio.h>
#include <string.h>

static const char a5[] = "\x6b\x63"
                         "\x5c\x0a\x5f\x0e\x5f\x11\x5f\x42\x5f\x12\x5f\x13"
                         "\x5f\x0e\x0d" "SMITH<<JOHN<J"
                         "\x5f\x11\x0a" "ANYTOWN<MN"
                         "\x5f\x42\x17" "123 MAPLE RD<ANYTOWN<MN"
                         "\x5f\x12\x0e" "1-612-555-1212"
                         "\x5f\x13\x0c" "TRAVEL<AGENT";

/* A full name that is there and empty, as the header has it. */
static const uint8_t empty[9] = { 0x6b, 0x07, 0x5c, 0x02, 0x5f, 0x0e, 0x5f, 0x0e, 0x00 };

/* Other names, in their template, between a name in Greek and a personal number. */
enum { LIST = 2, NAME = 10, OTHERS = 17, NUMBER = 27, FILE_LEN = 31 };
static const uint8_t others[FILE_LEN] = { 0x6b, 0x1d, 0x5c, 0x06, 0x5f, 0x0e, 0x5f, 0x0f, 0x5f, 0x10, 0x5f,
                                          0x0e, 0x04, 0xce, 0x91, 0xce, 0x92, 0xa0, 0x08, 0x02, 0x01, 0x01,
                                          0x5f, 0x0f, 0x02, 'A',  'B',  0x5f, 0x10, 0x01, '7' };

static const char t3[] = "P<UTONORD<<ELIN<<<<<<<<<<<<<<<<<<<<<<<<<<<<<"
                         "K7<<<<<<<1UTO9001158F3006302<<<<<<<<<<<<<<00";

static int is_found(lamphudet_detail detail, uint64_t start, uint64_t length)
{
    return detail.number == LAMPHUDET_NOT_REFUSED && detail.expected == LAMPHUDET_NO_DIGIT && detail.value == 0
        && detail.stretch.start == start && detail.stretch.length == length;
}

static int is_refused(lamphudet_detail detail, uint32_t number, uint64_t place)
{
    return detail.number == number && detail.expected == LAMPHUDET_NO_DIGIT && detail.value == place
        && detail.stretch.start == 0 && detail.stretch.length == 0;
}

/* A detail of A.5 by its octets. */
static int is(uint32_t tag, const char *octets)
{
    lamphudet_detail detail = lamphudet_read_detail((const uint8_t *)a5, sizeof a5 - 1, tag);

    return is_found(detail, detail.stretch.start, strlen(octets))
        && memcmp(a5 + detail.stretch.start, octets, strlen(octets)) == 0;
}

static int printed(void)
{
    return is(0x5f0e, "SMITH<<JOHN<J") && is(0x5f11, "ANYTOWN<MN") && is(0x5f42, "123 MAPLE RD<ANYTOWN<MN")
        && is(0x5f12, "1-612-555-1212") && is(0x5f13, "TRAVEL<AGENT")
        && is_found(lamphudet_read_detail((const uint8_t *)a5, sizeof a5 - 1, 0x5f10), 0, 0)
        && is_refused(lamphudet_read_detail((const uint8_t *)a5, sizeof a5 - 4, 0x5f0e), LAMPHUDET_REFUSED_ENCODING, 0);
}

static int found(void)
{
    return is_found(lamphudet_read_detail(empty, sizeof empty, 0x5f0e), 9, 0)
        && is_found(lamphudet_read_detail(empty, sizeof empty, 0x5f10), 0, 0)
        && is_found(lamphudet_read_detail(others, FILE_LEN, 0x5f0e), NAME + 3, 4)
        && is_found(lamphudet_read_detail(others, FILE_LEN, 0x5f0f), OTHERS, NUMBER - OTHERS)
        && is_found(lamphudet_read_detail(others, FILE_LEN, 0x5f10), NUMBER + 3, 1)
        && is_found(lamphudet_read_detail(others, FILE_LEN, 0xa0), 0, 0)
        && is_found(lamphudet_read_detail(others, FILE_LEN, 0x5c), 0, 0)
        && is_found(lamphudet_read_detail(others, FILE_LEN, 0x15f0e), 0, 0);
}

/* The file with one octet another: the refusal's number and place. */
static int with(size_t place, uint8_t octet, uint32_t number, uint64_t told)
{
    uint8_t file[FILE_LEN];

    memcpy(file, others, sizeof file);
    file[place] = octet;
    return is_refused(lamphudet_read_detail(file, sizeof file, 0x5f0e), number, told);
}

static int refused(void)
{
    static const uint8_t missing[6] = { 0x6b, 0x04, 0x5c, 0x02, 0x5f, 0x0e };

    return with(0, 0x6c, LAMPHUDET_REFUSED_ENCODING, 0) && with(1, 0x1c, LAMPHUDET_REFUSED_ENCODING, NUMBER)
        && with(LIST, 0x5d, LAMPHUDET_REFUSED_ENCODING, LIST) && with(NAME + 1, 0x19, LAMPHUDET_REFUSED_ENCODING, NAME)
        && with(NUMBER + 2, 0x02, LAMPHUDET_REFUSED_ENCODING, NUMBER)
        && with(LIST + 3, 0x0d, LAMPHUDET_REFUSED_DETAILS, LIST) && with(LIST + 3, 0x0f, LAMPHUDET_REFUSED_DETAILS, LIST)
        && with(LIST + 3, 0x11, LAMPHUDET_REFUSED_DETAILS, NAME) && with(LIST + 7, 0x11, LAMPHUDET_REFUSED_DETAILS, NUMBER)
        && with(NUMBER + 1, 0x0f, LAMPHUDET_REFUSED_DETAILS, NUMBER)
        && is_refused(lamphudet_read_detail(missing, sizeof missing, 0x5f0e), LAMPHUDET_REFUSED_DETAILS, sizeof missing)
        && is_refused(lamphudet_read_detail(NULL, 0, 0x5f0e), LAMPHUDET_REFUSED_ENCODING, 0);
}

static int names(const uint8_t *file, size_t file_len, size_t text_len, uint32_t from, uint64_t start, uint64_t length)
{
    lamphudet_name name = lamphudet_full_name(file, file_len, (const uint8_t *)t3, text_len);

    return name.from == from && name.stretch.start == start && name.stretch.length == length;
}

static int named(void)
{
    size_t len = sizeof t3 - 1;

    return names(others, FILE_LEN, len, LAMPHUDET_NAME_FILE, NAME + 3, 4)
        && names(others, FILE_LEN, 0, LAMPHUDET_NAME_FILE, NAME + 3, 4)
        && names(others, FILE_LEN - 1, len, LAMPHUDET_NAME_TEXT, 5, 10)
        && names(empty, sizeof empty, len, LAMPHUDET_NAME_TEXT, 5, 10) && names(NULL, 0, len, LAMPHUDET_NAME_TEXT, 5, 10)
        && names(empty, sizeof empty, len - 1, LAMPHUDET_NAME_NONE, 0, 0)
        && lamphudet_full_name(NULL, 0, NULL, 0).from == LAMPHUDET_NAME_NONE;
}

int main(void)
{
    int details = printed() && found();
    int kept_out = refused();
    int full = named();

    printf("details %s, refusals %s, names %s\n", details ? "found" : "NOT found", kept_out ? "right" : "WRONG",
           full ? "right" : "WRONG");
    return !(details && kept_out && full);
}
