/* Which stage of document 01, "Stages of a presentation", refused one. */
#ifndef DESK_STAGE_H
#define DESK_STAGE_H

#include <lamphudet.h>

enum stage { AFTER_ALL = 0, SIZE, OUTER_WALK, EF_COM, SECURITY_OBJECT, GROUP_FILES, GROUP_1 };

/*
 * Follows from the refusal's number, and for the numbers that several stages give from its place.
 */
enum stage stage_of(lamphudet_answer refusal, const uint8_t *presentation, size_t len);

const char *stage_words(enum stage stage);

#endif
