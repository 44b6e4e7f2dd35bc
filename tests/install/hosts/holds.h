/* What the hosts of both libraries ask of a field that was handed out. */
#ifndef INSTALL_HOLDS_H
#define INSTALL_HOLDS_H

#include <stddef.h>
#include <stdint.h>
#include <string.h>

/* A field holds these characters, and fillers behind them. */
static int holds(const uint8_t *field, size_t size, const char *characters)
{
    size_t len = strlen(characters);
    size_t at;

    for (at = 0; at < size; at++) {
        if (field[at] != (at < len ? (uint8_t)characters[at] : '<')) {
            return 0;
        }
    }
    return len <= size;
}

#endif
