#include "octets.h"

#include "program.h"

#include <errno.h>
#include <stdio.h>
#include <stdlib.h>
#include <string.h>

int octets_add(struct octets *octets, const void *more, size_t len)
{
    if (len > octets->room - octets->len) {
        size_t room = 2 * (octets->len + len);
        uint8_t *at = realloc(octets->at, room);

        if (at == NULL) {
            fprintf(stderr, "%s: no memory is left\n", program);
            return 0;
        }
        octets->at = at;
        octets->room = room;
    }
    if (len > 0) {
        memcpy(octets->at + octets->len, more, len);
    }
    octets->len += len;
    return 1;
}

static int read_on(struct octets *octets, FILE *stream)
{
    uint8_t part[4096];
    size_t len;

    while ((len = fread(part, 1, sizeof part, stream)) > 0) {
        if (!octets_add(octets, part, len)) {
            return 0;
        }
    }
    if (ferror(stream)) {
        fprintf(stderr, "%s: the input cannot be read: %s\n", program, strerror(errno));
        return 0;
    }
    return 1;
}

int is_standard(const char *file)
{
    return file == NULL || strcmp(file, "-") == 0;
}

int octets_read(struct octets *octets, const char *file)
{
    FILE *stream;
    int whole;

    if (is_standard(file)) {
        return read_on(octets, stdin);
    }
    stream = fopen(file, "rb");
    if (stream == NULL) {
        fprintf(stderr, "%s: %s: %s\n", program, file, strerror(errno));
        return 0;
    }
    whole = read_on(octets, stream);
    fclose(stream);
    return whole;
}

int octets_write(const char *file, const uint8_t *octets, size_t len)
{
    int standard = is_standard(file);
    FILE *stream = standard ? stdout : fopen(file, "wb");
    int written = stream != NULL && (len == 0 || fwrite(octets, 1, len, stream) == len) && fflush(stream) == 0;

    if (!standard && stream != NULL && fclose(stream) != 0) {
        written = 0;
    }
    if (!written) {
        fprintf(stderr, "%s: %s: %s\n", program, standard ? "standard output" : file, strerror(errno));
    }
    return written;
}

void octets_free(struct octets *octets)
{
    free(octets->at);
}
