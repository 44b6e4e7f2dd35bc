/*
 * A host of the installed library: how many single bits of an entry can be turned over and give another entry, which is why
 * a host keeps a check of its own over what it stores. README says about half. Exit status 0 where it is 40 to 60 in 100 of
 * each.
 */
#include <lamphudet.h>
#include <stdio.h>
#include <string.h>

static const char *const texts[] = {
    "I<UTOD231458907<<<<<<<<<<<<<<<" "7408122F1204159UTO<<<<<<<<<<<6" "ERIKSSON<<ANNA<MARIA<<<<<<<<<<",
    "I<UTOD23145890<7349<<<<<<<<<<<" "3407127M9507122UTO<<<<<<<<<<<2" "STEVENSON<<PETER<JOHN<<<<<<<<<",
    "I<UTOERIKSSON<<ANNA<MARIA<<<<<<<<<<<" "D231458907UTO7408122F1204159<<<<<<<6",
    "P<UTONORD<<ELIN<<<<<<<<<<<<<<<<<<<<<<<<<<<<<" "K7<<<<<<<1UTO9001158F3006302<<<<<<<<<<<<<<00",
    "P<UTOERIKSSON<<ANNA<MARIA<<<<<<<<<<<<<<<<<<<" "L898902C36UTO7408122F1204159ZE184226B<<<<<10",
};

/* The bits of an entry that give another one when they are turned over. */
static size_t flips(uint8_t *entry, size_t len)
{
    size_t taken = 0;
    size_t bit;

    for (bit = 0; bit < 8 * len; bit++) {
        uint8_t mask = (uint8_t)(0x80 >> bit % 8);

        entry[bit / 8] ^= mask;
        taken += lamphudet_open_entry(entry, len).number == LAMPHUDET_NOT_REFUSED;
        entry[bit / 8] ^= mask;
    }
    return taken;
}

int main(void)
{
    int right = 1;
    size_t at;

    for (at = 0; at < sizeof texts / sizeof texts[0]; at++) {
        uint8_t entry[LAMPHUDET_ENTRY_MAX];
        lamphudet_answer answer = lamphudet_read_text(1, (const uint8_t *)texts[at], strlen(texts[at]), entry, sizeof entry);
        size_t bits = 8 * (size_t)answer.value;
        size_t taken = answer.number == LAMPHUDET_NOT_REFUSED ? flips(entry, (size_t)answer.value) : 0;

        printf("%s%lu of %lu bits", at == 0 ? "" : ", ", (unsigned long)taken, (unsigned long)bits);
        right = right && 100 * taken >= 40 * bits && 100 * taken <= 60 * bits && bits > 0;
    }
    puts(right ? "" : ": NOT about half");
    return !right;
}
