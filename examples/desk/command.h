/* What a command of the desk is given, and what it answers. */
#ifndef DESK_COMMAND_H
#define DESK_COMMAND_H

#include "status.h"

#include <stdint.h>

/*
 * The command line behind the command's name. Of a file, a file of hex and operands at most one is
 * given.
 */
struct order {
    uint32_t house;
    int has_house; /* whether it is given */
    uint32_t group;
    const char *file; /* each of the three is NULL where none is named; a dash is standard input */
    const char *hex;
    const char *out; /* for entries, or for a group's file */
    char **operands;
    int operand_count;
};

enum status command_text(const struct order *order);
enum status command_presentation(const struct order *order);
enum status command_group(const struct order *order);
enum status command_inside(const struct order *order);
enum status command_details(const struct order *order);
enum status command_run(const struct order *order);
enum status command_list(const struct order *order);

#endif
