/* A file of hex, as people keep octets. */
#ifndef SHARED_HEX_FILE_H
#define SHARED_HEX_FILE_H

#include "octets.h"

/*
 * Gives the octets of a file of hex, named as for octets_read. A line that begins with # is a remark,
 * and is shown where that is asked for. 0 where it cannot be done, which is told; what is given is to
 * be freed then too.
 */
int hex_file_read(struct octets *octets, const char *file, int show_remarks);

#endif
