#include "given.h"

#include "options.h"

#include <string.h>

lamphudet_seal_header header_blank(void)
{
    lamphudet_seal_header header;

    memset(&header, 0, sizeof header);
    memset(header.country, '<', sizeof header.country);
    memset(header.signer, '<', sizeof header.signer);
    memset(header.reference, '<', sizeof header.reference);
    header.version = 3;
    header.definition = 0x5e;
    header.category = 3;
    return header;
}

/* Fillers behind the characters, whatever stood there. */
static int put_characters_of(uint8_t *field, size_t size, const char *option, const char *word)
{
    if (word == NULL) {
        return 1;
    }
    if (strlen(word) > size) {
        misused("%s is given more than %lu characters", option, (unsigned long)size);
        return 0;
    }
    memset(field, '<', size);
    memcpy(field, word, strlen(word));
    return 1;
}

/* The number of so many digits; -1 where they are none. */
static int digits(const char *word, size_t count)
{
    int number = 0;
    size_t at;

    for (at = 0; at < count; at++) {
        if (word[at] < '0' || word[at] > '9') {
            return -1;
        }
        number = 10 * number + (word[at] - '0');
    }
    return number;
}

/* As it is shown: four digits, two and two. Whether the calendar has the day the library says. */
static int put_day(lamphudet_day *day, const char *option, const char *word)
{
    if (word == NULL) {
        return 1;
    }
    if (strlen(word) != 10 || word[4] != '-' || word[7] != '-' || digits(word, 4) < 0 || digits(word + 5, 2) < 0
        || digits(word + 8, 2) < 0) {
        misused("%s is given '%s', which is no date as 2016-08-08", option, word);
        return 0;
    }
    day->year = (uint16_t)digits(word, 4);
    day->month = (uint8_t)digits(word + 5, 2);
    day->day = (uint8_t)digits(word + 8, 2);
    return 1;
}

int header_put(lamphudet_seal_header *header, const struct header_words *words)
{
    int put = put_characters_of(header->country, sizeof header->country, "--country", words->country)
           && put_characters_of(header->signer, sizeof header->signer, "--signer", words->signer)
           && put_characters_of(header->reference, sizeof header->reference, "--reference", words->reference)
           && put_day(&header->issued, "--issued", words->issued)
           && put_day(&header->signed_on, "--signed", words->signed_on);

    if (put && words->reference != NULL) {
        header->reference_len = (uint8_t)strlen(words->reference);
    }
    return put;
}
