/* What group 11's file says of a passenger. */
#ifndef DESK_DETAIL_H
#define DESK_DETAIL_H

#include <lamphudet.h>

/* Whether the library reads the file: its answer, which is one whichever detail is asked for. */
lamphudet_answer details_answer(const uint8_t *file, size_t len);

/* How many details a file has that the library reads. */
size_t details_count(const uint8_t *file, size_t len);

/* Each of them by its name in Doc 9303-10, with so many blanks before it. */
void show_details(const uint8_t *file, size_t len, int blanks);

#endif
