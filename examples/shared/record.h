/* A record as a host shows it. */
#ifndef SHARED_RECORD_H
#define SHARED_RECORD_H

#include <lamphudet.h>

/* Field by field. */
void show_record(const lamphudet_record *record);

/* In one line, below a heading. */
void show_heading(void);
void show_row(uint64_t offset, const lamphudet_record *record);

#endif
