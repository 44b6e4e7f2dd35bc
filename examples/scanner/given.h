/* The header of a seal as a command line gives it. */
#ifndef SCANNER_GIVEN_H
#define SCANNER_GIVEN_H

#include <lamphudet_seals.h>

/* Each is NULL where it is not given. */
struct header_words {
    const char *country, *signer, *reference;
    const char *issued, *signed_on;
};

/* What a header has that nothing was given for: version 3 of an emergency document, and blank fields. */
lamphudet_seal_header header_blank(void);

/*
 * Puts the words over the fields that they are for. Whether a seal can carry them is for the library to
 * say; 0 where a word does not fit its field or is no date, which is told.
 */
int header_put(lamphudet_seal_header *header, const struct header_words *words);

#endif
