#include "group_11.h"

#include "detail.h"
#include "print.h"
#include "utf8.h"

#include <stdio.h>

void show_group_11(const uint8_t *presentation, lamphudet_stretch file)
{
    lamphudet_answer answer = details_answer(presentation + file.start, (size_t)file.length);

    fputs("    details    ", stdout);
    if (answer.number == LAMPHUDET_NOT_REFUSED) {
        printf("%lu\n", (unsigned long)details_count(presentation + file.start, (size_t)file.length));
        show_details(presentation + file.start, (size_t)file.length, 6);
    } else {
        answer.value += file.start;
        put_refusal(stdout, answer);
    }
}

void show_full_name(const uint8_t *presentation, lamphudet_stretch file, struct element text)
{
    const uint8_t *group_11 = presentation + file.start;
    const uint8_t *group_1 = presentation + text.content;
    size_t text_len = text.end - text.content;
    lamphudet_name name = lamphudet_full_name(group_11, (size_t)file.length, group_1, text_len);
    lamphudet_name in_text = lamphudet_full_name(NULL, 0, group_1, text_len);
    const uint8_t *in = name.from == LAMPHUDET_NAME_FILE ? group_11 : group_1;

    fputs("  full name    ", stdout);
    put_utf8(in + name.stretch.start, (size_t)name.stretch.length);
    printf("\n    from       %s\n    in text    ", name.from == LAMPHUDET_NAME_FILE ? "group 11" : "the text");
    put_utf8(group_1 + in_text.stretch.start, (size_t)in_text.stretch.length);
    putchar('\n');
}
