/* A number on the command line. */
#ifndef SHARED_NUMBER_H
#define SHARED_NUMBER_H

#include <stdint.h>

/*
 * Any number that the library can be asked about, also one that is no house or no group. 0 where
 * the word is none.
 */
int number_of(const char *word, uint32_t *number);

#endif
