/* What a host prints for a person, whatever it reads. */
#ifndef SHARED_PRINT_H
#define SHARED_PRINT_H

#include <lamphudet.h>
#include <stdio.h>

/*
 * One character for each octet, so that a caret below stands where it should, and nothing that
 * would steer a terminal.
 */
void put_characters(const uint8_t *text, size_t len);

/* Below a line that begins with four blanks. */
void put_caret(uint64_t column);

void show_hex(const char *label, const uint8_t *octets, size_t len);

/*
 * The octets around a place, and a caret below it; behind the last octet where the place is their
 * end.
 */
void show_octets(const uint8_t *octets, size_t len, uint64_t place);

/* A line of a file that the host does not read. */
void show_remark(const char *line, size_t len);

/* The refusal in words, with the check digit that was expected where there is one, to the end of a line. */
void put_refusal(FILE *to, lamphudet_answer answer);

/* The same on standard output, as a line of its own. */
void show_refusal(lamphudet_answer answer);

#endif
