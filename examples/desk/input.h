/* Octets that a command is lent, from wherever its order says. */
#ifndef DESK_INPUT_H
#define DESK_INPUT_H

#include "command.h"
#include "octets.h"

/*
 * Operands are hex, all of them joined; a file of hex may have remarks, which are shown where that
 * is asked for; any other file, and standard input where nothing is named, is taken as it is. 0
 * where that cannot be done, which is told.
 */
int input_octets(struct octets *octets, const struct order *order, int show_remarks);

#endif
