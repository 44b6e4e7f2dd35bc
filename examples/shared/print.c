#include "print.h"

#include <inttypes.h>

/* How many octets are shown before a place, and from it on. */
#define BEFORE 8
#define FROM 8

void put_characters(const uint8_t *text, size_t len)
{
    size_t at;

    for (at = 0; at < len; at++) {
        putchar(text[at] >= ' ' && text[at] <= '~' ? text[at] : '?');
    }
}

void put_caret(uint64_t column)
{
    printf("    %*s^\n", (int)column, "");
}

void show_hex(const char *label, const uint8_t *octets, size_t len)
{
    size_t at;

    printf("  %-13s", label);
    for (at = 0; at < len; at++) {
        printf("%02x", (unsigned)octets[at]);
    }
    putchar('\n');
}

void show_octets(const uint8_t *octets, size_t len, uint64_t place)
{
    uint64_t start = place < BEFORE ? 0 : place - BEFORE;
    uint64_t at;

    if (place > len || len == 0) {
        return;
    }
    printf("    octets from %" PRIu64 "\n   ", start);
    for (at = start; at < len && at < place + FROM; at++) {
        printf(" %02x", (unsigned)octets[at]);
    }
    putchar('\n');
    put_caret(3 * (place - start));
}

void show_remark(const char *line, size_t len)
{
    put_characters((const uint8_t *)line, len > 0 && line[len - 1] == '\r' ? len - 1 : len);
    putchar('\n');
}

void put_refusal(FILE *to, lamphudet_answer answer)
{
    fprintf(to, "refused, %" PRIu32 " at place %" PRIu64 ": %s", answer.number, answer.value, lamphudet_words(answer.number));
    if (answer.expected != LAMPHUDET_NO_DIGIT) {
        fprintf(to, ", expected %" PRIu32, answer.expected);
    }
    fputc('\n', to);
}

void show_refusal(lamphudet_answer answer)
{
    fputs("  ", stdout);
    put_refusal(stdout, answer);
}
