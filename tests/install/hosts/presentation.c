/*
 * A host of the installed library: puts T3 of document 01 and another file into a presentation, with the digests that
 * lamphudet_digest gives, and reads it to the entry that the text alone has; finds the files where they were put; is refused
 * where it should be; and tells of a wrong check digit in group 1's text the one that was expected, and whose it is. Exit
 * status 0 where all of that is so.
 */
#include <lamphudet.h>
#include <stdio.h>
#include <string.h>

/* EF.COM with groups 1 and 2, and the security object with a place for the digest of each. */
static const uint8_t com[22] = { 0x60, 0x14, 0x5f, 0x01, 0x04, 0x30, 0x31, 0x30, 0x37, 0x5f, 0x36, 0x06,
                                 0x30, 0x34, 0x30, 0x30, 0x30, 0x30, 0x5c, 0x02, 0x61, 0x75 };
static const uint8_t object[22] = { 0x30, 0x62, 0x02, 0x01, 0x00, 0x30, 0x0d, 0x06, 0x09, 0x60, 0x86,
                                    0x48, 0x01, 0x65, 0x03, 0x04, 0x02, 0x01, 0x05, 0x00, 0x30, 0x4e };
static const uint8_t entry_1[7] = { 0x30, 0x25, 0x02, 0x01, 0x01, 0x04, 0x20 };
static const uint8_t entry_2[7] = { 0x30, 0x25, 0x02, 0x01, 0x02, 0x04, 0x20 };
static const uint8_t group_1[5] = { 0x61, 0x5b, 0x5f, 0x1f, 0x58 };
static const uint8_t group_2[3] = { 0x75, 0x01, 0x07 };
static const char t3[] = "P<UTONORD<<ELIN<<<<<<<<<<<<<<<<<<<<<<<<<<<<<"
                         "K7<<<<<<<1UTO9001158F3006302<<<<<<<<<<<<<<00";

/* Where the last character of EF.COM's version stands, and each of these, and all of it. */
enum { VERSION = 8, OBJECT = 22, ENTRY_1 = 44, ENTRY_2 = 83, GROUP_1 = 122, TEXT = 127, GROUP_2 = 215, ALL = 218 };

/* With no digit expected. */
static int is(lamphudet_answer answer, uint32_t number, uint64_t value)
{
    return answer.number == number && answer.expected == LAMPHUDET_NO_DIGIT && answer.value == value;
}

/* Each file's digest goes into its entry. */
static int digest_files(uint8_t *made)
{
    return is(lamphudet_digest(made + GROUP_1, GROUP_2 - GROUP_1, made + ENTRY_1 + sizeof entry_1, LAMPHUDET_DIGEST), 0, 32)
        && is(lamphudet_digest(made + GROUP_2, ALL - GROUP_2, made + ENTRY_2 + sizeof entry_2, LAMPHUDET_DIGEST), 0, 32);
}

static int put_together(uint8_t *made)
{
    memcpy(made, com, sizeof com);
    memcpy(made + OBJECT, object, sizeof object);
    memcpy(made + ENTRY_1, entry_1, sizeof entry_1);
    memcpy(made + ENTRY_2, entry_2, sizeof entry_2);
    memcpy(made + GROUP_1, group_1, sizeof group_1);
    memcpy(made + TEXT, t3, sizeof t3 - 1);
    memcpy(made + GROUP_2, group_2, sizeof group_2);
    return digest_files(made);
}

static int accepted(const uint8_t *made)
{
    uint8_t entry[LAMPHUDET_ENTRY_MAX];
    uint8_t same[LAMPHUDET_ENTRY_MAX];

    return is(lamphudet_read_presentation(1, made, ALL, entry, sizeof entry), 0, 43)
        && is(lamphudet_read_text(1, made + TEXT, sizeof t3 - 1, same, sizeof same), 0, 43)
        && memcmp(entry, same, 43) == 0;
}

static int stands(const uint8_t *made, uint32_t group, uint64_t start, uint64_t length)
{
    lamphudet_stretch file = lamphudet_group_file(made, ALL, group);

    return file.start == start && file.length == length;
}

static int found(const uint8_t *made)
{
    return stands(made, 1, GROUP_1, GROUP_2 - GROUP_1) && stands(made, 2, GROUP_2, ALL - GROUP_2)
        && stands(made, 3, 0, 0) && stands(made, 0, 0, 0) && lamphudet_group_file(NULL, 0, 1).length == 0;
}

/* EF.COM says 0108, and the object has version 0. */
static int disagreed(uint8_t *made)
{
    uint8_t entry[LAMPHUDET_ENTRY_MAX];
    lamphudet_answer answer;

    made[VERSION] = '8';
    answer = lamphudet_read_presentation(1, made, ALL, entry, sizeof entry);
    made[VERSION] = '7';
    return is(answer, LAMPHUDET_REFUSED_VERSIONS, OBJECT);
}

static int refused(uint8_t *made)
{
    static uint8_t long_one[LAMPHUDET_PRESENTATION_MAX + 1];
    uint8_t entry[LAMPHUDET_ENTRY_MAX];
    int right = is(lamphudet_read_presentation(1, NULL, 0, NULL, 0), LAMPHUDET_REFUSED_ENCODING, 0)
             && is(lamphudet_read_presentation(1, long_one, sizeof long_one, entry, 0), LAMPHUDET_REFUSED_LENGTH, 0)
             && is(lamphudet_read_presentation(1, made, GROUP_1, entry, 0), LAMPHUDET_REFUSED_GROUP, GROUP_1)
             && is(lamphudet_read_presentation(0, made, ALL, entry, 0), LAMPHUDET_REFUSED_UNSOUND, 0)
             && is(lamphudet_read_presentation(1, made, ALL, entry, 42), LAMPHUDET_REFUSED_OUTPUT, 0);

    made[ALL - 1] ^= 1;
    return right && is(lamphudet_read_presentation(1, made, ALL, entry, sizeof entry), LAMPHUDET_REFUSED_DIGEST, GROUP_2);
}

/*
 * A wrong check digit of the text, which is the file of group 1 from its sixth octet on, is told with the one that was
 * expected, and has a name by its place. None of T3's is 9.
 */
static int told(uint8_t *made, size_t place, uint32_t digit, const char *words)
{
    uint8_t entry[LAMPHUDET_ENTRY_MAX];
    lamphudet_stretch file;
    lamphudet_answer answer;

    put_together(made);
    made[TEXT + place] = '9';
    if (!digest_files(made)) {
        return 0;
    }
    file = lamphudet_group_file(made, ALL, 1);
    answer = lamphudet_read_presentation(1, made, ALL, entry, sizeof entry);
    return answer.number == LAMPHUDET_REFUSED_DIGIT && answer.expected == digit && answer.value == TEXT + place
        && strcmp(lamphudet_field(made + file.start + 5, (size_t)file.length - 5, answer.value - file.start - 5), words) == 0;
}

int main(void)
{
    uint8_t made[ALL];
    int kept = put_together(made) && accepted(made);
    int handed = found(made);
    int kept_out = disagreed(made) && refused(made);
    int digits = told(made, 63, 8, "check digit of the birth") && told(made, 87, 0, "composite check digit");

    printf("presentation %s, files %s, refusals %s, check digits %s\n", kept ? "kept" : "NOT kept",
           handed ? "found" : "NOT found", kept_out ? "right" : "WRONG", digits ? "told" : "NOT told");
    return !(kept && handed && kept_out && digits);
}
