#include "write.h"

#include "header.h"
#include "print.h"
#include "record.h"

#include <stdio.h>

enum status header_of(const struct octets *seal, lamphudet_seal_header *header)
{
    uint8_t entry[LAMPHUDET_ENTRY_MAX];
    lamphudet_seal read = lamphudet_read_seal(1, seal->at, seal->len, entry, sizeof entry);
    lamphudet_answer refusal;

    if (read.number == LAMPHUDET_NOT_REFUSED) {
        *header = header_read(&read);
        return ALL_ACCEPTED;
    }
    refusal.number = read.number;
    refusal.expected = read.expected;
    refusal.value = read.value;
    puts("  like         a seal that is none");
    show_octets(seal->at, seal->len, refusal.value);
    show_refusal(refusal);
    putchar('\n');
    return SOME_REFUSED;
}

/* What was given, of which something is refused at 0; what is no entry has no record to show. */
static void show_given(const struct octets *entry, const lamphudet_seal_header *header, size_t signature_len)
{
    lamphudet_record record = lamphudet_open_entry(entry->at, entry->len);

    show_header(header);
    if (record.number == LAMPHUDET_NOT_REFUSED) {
        show_record(&record);
    } else {
        show_octets(entry->at, entry->len, 0);
    }
    printf("  signature    %lu octets\n", (unsigned long)signature_len);
}

static enum status keep(const char *file, const uint8_t *seal, size_t len)
{
    if (file == NULL) {
        return ALL_ACCEPTED;
    }
    if (!octets_write(file, seal, len)) {
        return NOT_DONE;
    }
    printf("  written      %lu octets, to %s\n", (unsigned long)len, file);
    return ALL_ACCEPTED;
}

enum status write_seal(const struct octets *entry, lamphudet_seal_header header, const struct octets *signature,
                       const char *file)
{
    static uint8_t seal[LAMPHUDET_SEAL_MAX]; /* room for any: a scanner is never refused 16 */
    enum status status = SOME_REFUSED;
    lamphudet_answer answer =
        lamphudet_write_seal(entry->at, entry->len, header, signature->at, signature->len, seal, sizeof seal);

    show_given(entry, &header, signature->len);
    if (answer.number == LAMPHUDET_NOT_REFUSED) {
        printf("  seal         %lu octets\n", (unsigned long)answer.value);
        show_rows(seal, (size_t)answer.value);
        status = keep(file, seal, (size_t)answer.value);
    } else {
        show_refusal(answer);
    }
    putchar('\n');
    return status;
}
