#include "kept.h"

#include "record.h"
#include "show.h"

void show_kept(const uint8_t *entry, size_t len)
{
    uint8_t text[LAMPHUDET_TEXT_MAX];
    lamphudet_record record = lamphudet_open_entry(entry, len);
    lamphudet_answer written = lamphudet_write_text(entry, len, text, sizeof text);

    show_record(&record);
    show_hex("entry", entry, len);
    if (written.number == LAMPHUDET_NOT_REFUSED) {
        show_text("written back", text, (size_t)written.value);
    } else {
        show_refusal(written);
    }
}
