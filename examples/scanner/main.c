/*
 * The handheld scanner at the quay: reads the seals of emergency travel documents, and prints what
 * each says, or why it is refused; and writes the seal of an entry.
 *
 * This file takes the command line apart.
 */
#include "given.h"
#include "hex_file.h"
#include "options.h"
#include "program.h"
#include "seal.h"
#include "usage.h"
#include "write.h"

#include <stdio.h>
#include <string.h>

const char program[] = "scanner";

/* Those of both come first. */
enum { HEX, OUT, OF_BOTH };
enum { HOUSE = OF_BOTH, OF_READING };
enum { LIKE = OF_BOTH, OCTET, COUNTRY, SIGNER, REFERENCE, ISSUED, SIGNED, SIGNATURE, OF_WRITING };
static struct option reading[OF_READING] = {
    { "--hex", FLAG, NULL, 0 },
    { "--out", WORD, NULL, 0 },
    { "--house", NUMBER, NULL, 1 },
};
static struct option writing[OF_WRITING] = {
    { "--hex", FLAG, NULL, 0 },
    { "--out", WORD, NULL, 0 },
    { "--like", WORD, NULL, 0 },
    { "--octet", NUMBER, NULL, 3 },
    { "--country", WORD, NULL, 0 },
    { "--signer", WORD, NULL, 0 },
    { "--reference", WORD, NULL, 0 },
    { "--issued", WORD, NULL, 0 },
    { "--signed", WORD, NULL, 0 },
    { "--signature", WORD, NULL, 0 },
};

/* A file as it is, or what its hex says. Of hex that is read to be shown the remarks are shown too. */
static int gather(struct octets *octets, const char *file, int hex, int shown)
{
    return hex ? hex_file_read(octets, file, shown) : octets_read(octets, file);
}

static enum status read_file(const char *file, struct store *kept)
{
    struct octets given = { NULL, 0, 0 };
    int hex = reading[HEX].given != NULL;
    enum status status = NOT_DONE;

    if (gather(&given, file, hex, 1)) {
        status = read_seal(&given, reading[HOUSE].number, is_standard(file) && !hex, kept);
    }
    octets_free(&given);
    return status;
}

static enum status read_files(struct words files)
{
    struct store kept = { { NULL, 0, 0 }, 0 };
    enum status worst = ALL_ACCEPTED;
    int at;

    for (at = 0; at < files.count; at++) {
        enum status status = read_file(files.at[at], &kept);

        worst = status > worst ? status : worst;
    }
    worst = store_write(&kept, reading[OUT].given, worst);
    store_free(&kept);
    return worst;
}

/* The header of the seal that --like names, where it does. */
static enum status begin_header(lamphudet_seal_header *header)
{
    struct octets seal = { NULL, 0, 0 };
    enum status status = ALL_ACCEPTED;

    if (writing[LIKE].given != NULL) {
        status = gather(&seal, writing[LIKE].given, writing[HEX].given != NULL, 0) ? header_of(&seal, header) : NOT_DONE;
    }
    octets_free(&seal);
    return status;
}

/* What the options say, over that. */
static enum status make_header(lamphudet_seal_header *header)
{
    struct header_words words = { writing[COUNTRY].given, writing[SIGNER].given, writing[REFERENCE].given,
                                  writing[ISSUED].given, writing[SIGNED].given };
    enum status status = begin_header(header);

    if (status == ALL_ACCEPTED && writing[OCTET].given != NULL) {
        header->version = (uint8_t)writing[OCTET].number;
    }
    return status == ALL_ACCEPTED && !header_put(header, &words) ? NOT_DONE : status;
}

static enum status write_file(const char *file)
{
    struct octets entry = { NULL, 0, 0 };
    struct octets signature = { NULL, 0, 0 };
    lamphudet_seal_header header = header_blank();
    int hex = writing[HEX].given != NULL;
    enum status status = make_header(&header);

    if (status == ALL_ACCEPTED) {
        int gathered = gather(&entry, file, hex, 0)
                    && (writing[SIGNATURE].given == NULL || gather(&signature, writing[SIGNATURE].given, hex, 0));

        status = gathered ? write_seal(&entry, header, &signature, writing[OUT].given) : NOT_DONE;
    }
    octets_free(&entry);
    octets_free(&signature);
    return status;
}

static enum asked understand_reading(struct words *files)
{
    struct options taken = { program, reading, OF_READING };
    enum asked asked = options_take(&taken, files);

    if (asked == TO_WORK && files->count == 0) {
        misused("no file is given");
        return FOR_NOTHING;
    }
    return asked == TO_WORK && !is_place_of_store(reading[OUT].given) ? FOR_NOTHING : asked;
}

static enum asked understand_writing(struct words *files)
{
    struct options taken = { "--write", writing, OF_WRITING };
    enum asked asked = options_take(&taken, files);

    if (asked != TO_WORK) {
        return asked;
    }
    if (files->count != 1) {
        misused(files->count == 0 ? "no entry is given" : "more than one entry is given, and a seal has one");
        return FOR_NOTHING;
    }
    if (writing[OCTET].given != NULL && writing[OCTET].number > 255) {
        misused("--octet is given '%s', which is no octet", writing[OCTET].given);
        return FOR_NOTHING;
    }
    return is_place_of_store(writing[OUT].given) ? TO_WORK : FOR_NOTHING;
}

int main(int count, char **words)
{
    struct words left = { words + 1, count - 1 };
    int writes = left.count > 0 && strcmp(left.at[0], "--write") == 0;

    if (writes) {
        skip(&left, 1);
    }
    switch ((writes ? understand_writing : understand_reading)(&left)) {
    case TO_WORK: return done(writes ? write_file(left.at[0]) : read_files(left));
    case FOR_HELP: fputs(usage, stdout); return done(ALL_ACCEPTED);
    case FOR_VERSION: show_version(); return done(ALL_ACCEPTED);
    default: return NOT_DONE;
    }
}
