/*
 * A host of the installed header: lamphudet_field names every place of every form as documents 01 and 02 lay the texts out,
 * and answers for every length and place. Below each text stands its picture, a letter for each place, written from the paper's
 * widths. Exit status 0 where every place has the words of its letter.
 */
#include <lamphudet.h>
#include <stdio.h>
#include <stdlib.h>
#include <string.h>

/* A letter of the pictures, and what stands there. */
static const struct {
    char letter;
    const char *words;
} meanings[] = {
    { 'c', "document code" },
    { 's', "issuing state" },
    { 'a', "name" },
    { 'n', "document number" },
    { 'N', "check digit of the document number" },
    { 'f', "document number, further characters" },
    { '-', "filler for the check digit of a long document number" },
    { '.', "filler behind a long document number" },
    { 'o', "optional data" },
    { 'q', "second optional data" },
    { 't', "nationality" },
    { 'b', "birth" },
    { 'B', "check digit of the birth" },
    { 'x', "sex" },
    { 'e', "expiry" },
    { 'E', "check digit of the expiry" },
    { 'p', "personal number" },
    { 'P', "check digit of the personal number" },
    { 'C', "composite check digit" },
};

static const struct {
    const char *text, *picture;
} drawn[] = {
    /* TD1: code 2, state 3, number 9, check, optional 15; .. */
    { "I<UTOD231458907<<<<<<<<<<<<<<<" "7408122F1204159UTO<<<<<<<<<<<6" "ERIKSSON<<ANNA<MARIA<<<<<<<<<<",
      "ccsssnnnnnnnnnNooooooooooooooo" "bbbbbbBxeeeeeeEtttqqqqqqqqqqqC" "aaaaaaaaaaaaaaaaaaaaaaaaaaaaaa" },
    /* a long number of twelve characters, and data behind it */
    { "I<UTOD23145890<7349<AB<<<<<<<<" "3407127M9507122UTO<<<<<<<<<<<2" "STEVENSON<<PETER<JOHN<<<<<<<<<",
      "ccsssnnnnnnnnn-fffN.oooooooooo" "bbbbbbBxeeeeeeEtttqqqqqqqqqqqC" "aaaaaaaaaaaaaaaaaaaaaaaaaaaaaa" },
    /* the longest: thirteen further characters */
    { "I<UTOD23145890<ABCDEFGHIJKLM3<" "3407127M9507122UTO<<<<<<<<<<<2" "STEVENSON<<PETER<JOHN<<<<<<<<<",
      "ccsssnnnnnnnnn-fffffffffffffN." "bbbbbbBxeeeeeeEtttqqqqqqqqqqqC" "aaaaaaaaaaaaaaaaaaaaaaaaaaaaaa" },
    /* long, and no end: refused, and its optional data are no number */
    { "I<UTOD23145890<ABCDEFGHIJKLM34" "3407127M9507122UTO<<<<<<<<<<<2" "STEVENSON<<PETER<JOHN<<<<<<<<<",
      "ccsssnnnnnnnnn-ooooooooooooooo" "bbbbbbBxeeeeeeEtttqqqqqqqqqqqC" "aaaaaaaaaaaaaaaaaaaaaaaaaaaaaa" },
    /* long, and only one character before the end: likewise */
    { "I<UTOD23145890<3<<<<<<<<<<<<<<" "3407127M9507122UTO<<<<<<<<<<<2" "STEVENSON<<PETER<JOHN<<<<<<<<<",
      "ccsssnnnnnnnnn-ooooooooooooooo" "bbbbbbBxeeeeeeEtttqqqqqqqqqqqC" "aaaaaaaaaaaaaaaaaaaaaaaaaaaaaa" },
    /* TD2: code 2, state 3, name 31; .. */
    { "I<UTOERIKSSON<<ANNA<MARIA<<<<<<<<<<<" "D231458907UTO7408122F1204159<<<<<<<6",
      "cc" "sss" "aaaaaaaaaaaaaaaaaaaaaaaaaaaaaaa" "nnnnnnnnnNtttbbbbbbBxeeeeeeEoooooooC" },
    { "I<UTOERIKSSON<<ANNA<MARIA<<<<<<<<<<<" "D23145890<UTO7408122F120415973499<<6",
      "cc" "sss" "aaaaaaaaaaaaaaaaaaaaaaaaaaaaaaa" "nnnnnnnnn-tttbbbbbbBxeeeeeeEffffN.oC" },
    { "I<UTOERIKSSON<<ANNA<MARIA<<<<<<<<<<<" "D23145890<UTO7408122F1204159ABCDE3<6",
      "cc" "sss" "aaaaaaaaaaaaaaaaaaaaaaaaaaaaaaa" "nnnnnnnnn-tttbbbbbbBxeeeeeeEfffffN.C" },
    { "I<UTOERIKSSON<<ANNA<MARIA<<<<<<<<<<<" "D23145890<UTO7408122F1204159ABCDEF36",
      "cc" "sss" "aaaaaaaaaaaaaaaaaaaaaaaaaaaaaaa" "nnnnnnnnn-tttbbbbbbBxeeeeeeEoooooooC" },
    /* TD3: code 2, state 3, name 39; .. */
    { "P<UTONORD<<ELIN<<<<<<<<<<<<<<<<<<<<<<<<<<<<<" "K7<<<<<<<1UTO9001158F3006302<<<<<<<<<<<<<<00",
      "ccsssaaaaaaaaaaaaaaaaaaaaaaaaaaaaaaaaaaaaaaa" "nnnnnnnnnNtttbbbbbbBxeeeeeeEppppppppppppppPC" },
    /* in TD3 a filler at the number's check place is a wrong digit */
    { "P<UTONORD<<ELIN<<<<<<<<<<<<<<<<<<<<<<<<<<<<<" "K7<<<<<<<<UTO9001158F3006302ABC3<<<<<<<<<<00",
      "ccsssaaaaaaaaaaaaaaaaaaaaaaaaaaaaaaaaaaaaaaa" "nnnnnnnnnNtttbbbbbbBxeeeeeeEppppppppppppppPC" },
    /* MRV-A: code 2, state 3, name 39; number 9, check, nationality 3, birth 6, check, sex, valid-until 6, check, optional 16 */
    { "V<UTOERIKSSON<<ANNA<MARIA<<<<<<<<<<<<<<<<<<<" "L8988901C4XXX4009078F96121096ZE184226B<<<<<<",
      "ccsssaaaaaaaaaaaaaaaaaaaaaaaaaaaaaaaaaaaaaaa" "nnnnnnnnnNtttbbbbbbBxeeeeeeEoooooooooooooooo" },
    /* MRV-B: name 31, optional 8 */
    { "VZUTOERIKSSON<<ANNA<MARIA<<<<<<<<<<<" "L8988901C4XXX4009078F9612109<<<<<<<<",
      "cc" "sss" "aaaaaaaaaaaaaaaaaaaaaaaaaaaaaaa" "nnnnnnnnnNtttbbbbbbBxeeeeeeEoooooooo" },
    /* in a visa a filler at the number's check place is a wrong digit, and nothing behind it a number */
    { "VAUTOERIKSSON<<ANNA<MARIA<<<<<<<<<<<" "L8988901C<XXX4009078F96121097349<<<<",
      "cc" "sss" "aaaaaaaaaaaaaaaaaaaaaaaaaaaaaaa" "nnnnnnnnnNtttbbbbbbBxeeeeeeEoooooooo" },
    { "VAUTOERIKSSON<<ANNA<MARIA<<<<<<<<<<<<<<<<<<<" "L8988901C<XXX4009078F96121097349<<<<<<<<<<<<",
      "ccsssaaaaaaaaaaaaaaaaaaaaaaaaaaaaaaaaaaaaaaa" "nnnnnnnnnNtttbbbbbbBxeeeeeeEoooooooooooooooo" },
    /* V and a digit, or what is none of the alphabet, selects no visa: TD2 with a long number, and TD3; V in TD1 neither */
    { "V0UTOERIKSSON<<ANNA<MARIA<<<<<<<<<<<" "D23145890<UTO7408122F1204159ABCDE3<6",
      "cc" "sss" "aaaaaaaaaaaaaaaaaaaaaaaaaaaaaaa" "nnnnnnnnn-tttbbbbbbBxeeeeeeEfffffN.C" },
    { "V[UTONORD<<ELIN<<<<<<<<<<<<<<<<<<<<<<<<<<<<<" "K7<<<<<<<1UTO9001158F3006302<<<<<<<<<<<<<<00",
      "ccsssaaaaaaaaaaaaaaaaaaaaaaaaaaaaaaaaaaaaaaa" "nnnnnnnnnNtttbbbbbbBxeeeeeeEppppppppppppppPC" },
    { "V<UTOD231458907<<<<<<<<<<<<<<<" "7408122F1204159UTO<<<<<<<<<<<6" "ERIKSSON<<ANNA<MARIA<<<<<<<<<<",
      "ccsssnnnnnnnnnNooooooooooooooo" "bbbbbbBxeeeeeeEtttqqqqqqqqqqqC" "aaaaaaaaaaaaaaaaaaaaaaaaaaaaaa" },
};

static const char *meaning(char letter)
{
    size_t at = 0;

    while (meanings[at].letter != letter) {
        at++;
    }
    return meanings[at].words;
}

/* In memory of its own length, so that a reading past its end is seen where addresses are watched. */
static uint8_t *lent(const char *characters, size_t len)
{
    uint8_t *text = (uint8_t *)malloc(len == 0 ? 1 : len);

    if (text == NULL) {
        exit(2);
    }
    memcpy(text, characters, len);
    return text;
}

static int told(const uint8_t *text, size_t len, uint64_t place, const char *words)
{
    const char *given = lamphudet_field(text, len, place);

    if (strcmp(given, words) != 0) {
        printf("of %lu characters %lu is '%s', and not '%s'\n", (unsigned long)len, (unsigned long)place, given, words);
        return 0;
    }
    return 1;
}

static int as_drawn(void)
{
    int right = 1;
    size_t one;

    for (one = 0; one < sizeof drawn / sizeof drawn[0]; one++) {
        size_t len = strlen(drawn[one].text);
        uint8_t *text = lent(drawn[one].text, len);
        size_t place;

        right = right && strlen(drawn[one].picture) == len;
        for (place = 0; place < len; place++) {
            right = told(text, len, place, meaning(drawn[one].picture[place])) && right;
        }
        for (place = len; place < len + 200; place++) {
            right = told(text, len, place, "not in a text") && right;
        }
        right = told(text, len, UINT64_MAX, "not in a text") && right;
        free(text);
    }
    return right;
}

/* Every other length has no places. */
static int elsewhere(void)
{
    int right = told(NULL, 0, 0, "not in a text");
    char fillers[200];
    size_t len;

    memset(fillers, '<', sizeof fillers);
    for (len = 1; len < sizeof fillers; len++) {
        uint8_t *text = lent(fillers, len);
        uint64_t place;

        for (place = 0; len != 72 && len != 88 && len != 90 && place <= len; place++) {
            right = told(text, len, place, "not in a text") && right;
        }
        free(text);
    }
    return right;
}

int main(void)
{
    int inside = as_drawn();
    int outside = elsewhere();

    printf("fields %s, elsewhere %s\n", inside ? "right" : "WRONG", outside ? "right" : "WRONG");
    return !(inside && outside);
}
