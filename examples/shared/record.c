#include "record.h"

#include <inttypes.h>
#include <stdio.h>

/* A field for a format's .*s: it ends in no zero, and is shown whole or up to its length. */
#define UP_TO(field, len) (int)(len), (const char *)(field)
#define WHOLE(field) UP_TO(field, sizeof(field))

static const char *form_name(uint8_t form)
{
    switch (form) {
    case LAMPHUDET_TD1: return "TD1";
    case LAMPHUDET_TD2: return "TD2";
    case LAMPHUDET_TD3: return "TD3";
    case LAMPHUDET_MRV_A: return "MRV-A";
    case LAMPHUDET_MRV_B: return "MRV-B";
    default: return "?";
    }
}

void show_record(const lamphudet_record *record)
{
    printf("  house        %" PRIu32 "\n", record->house);
    printf("  form         %s\n", form_name(record->form));
    printf("  code         %.*s\n", WHOLE(record->code));
    printf("  state        %.*s\n", WHOLE(record->state));
    printf("  number       %.*s\n", UP_TO(record->document_number, record->document_number_len));
    printf("  nationality  %.*s\n", WHOLE(record->nationality));
    printf("  birth        %.*s\n", WHOLE(record->birth));
    printf("  sex          %c\n", record->sex);
    printf("  expiry       %.*s\n", WHOLE(record->expiry));
    printf("  name         %.*s\n", UP_TO(record->name, record->name_len));
    /* The one field that may be empty. */
    if (record->data_len > 0) {
        printf("  data         %.*s\n", UP_TO(record->data, record->data_len));
    } else {
        puts("  data         none");
    }
}

/* Columns of one width each, but for the name, which is last. */
void show_heading(void)
{
    printf("  %6s  %5s  %-5s  %-4s  %-5s  %-22s  %-6s  %-6s  %-3s  %-6s  %-16s  %s\n", "offset", "house", "form", "code",
           "state", "number", "nation", "birth", "sex", "expiry", "data", "name");
}

void show_row(uint64_t offset, const lamphudet_record *record)
{
    printf("  %6" PRIu64 "  %5" PRIu32 "  %-5s", offset, record->house, form_name(record->form));
    printf("  %-4.*s  %-5.*s", WHOLE(record->code), WHOLE(record->state));
    printf("  %-22.*s", UP_TO(record->document_number, record->document_number_len));
    printf("  %-6.*s  %-6.*s", WHOLE(record->nationality), WHOLE(record->birth));
    printf("  %-3c  %-6.*s", record->sex, WHOLE(record->expiry));
    printf("  %-16.*s  %.*s\n", UP_TO(record->data, record->data_len), UP_TO(record->name, record->name_len));
}
