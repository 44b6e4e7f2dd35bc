/*
 * A host of the installed library: looks into files of groups, among them the one of group 12 that Doc 9303-10 prints in A.6, a
 * face with one template and the longest file that can be; counts their elements; and is refused by each number at each of
 * its places. Exit status 0 where all of that is so.
 */
#include <lamphudet.h>
#include <stdio.h>
#include <string.h>

/* A.6. Its 0A is primitive; with A0 there the two elements behind it stand in it. */
enum { OTHER_PERSON = 48 };
static const char a6[] = "\x6c\x45"
                         "\x5c\x06\x5f\x19\x5f\x26\x5f\x1a"
                         "\x5f\x19\x18" "UNITED STATES OF AMERICA"
                         "\x5f\x26\x08" "20020531"
                         "\x0a\x15\x02\x01\x01\x5f\x1a\x0f" "SMITH<<BRENDA<P";

/* A face: 75, 7F61 with its count and one template, in it a header and a picture of one octet. */
enum { GROUP_TEMPLATE = 2, COUNT = 7, PICTURE = 15, FACE = 19 };
static const uint8_t face[FACE] = { 0x75, 0x11, 0x7f, 0x61, 0x0e, 0x02, 0x01, 0x01, 0x7f, 0x60,
                                    0x08, 0xa1, 0x02, 0x88, 0x00, 0x5f, 0x2e, 0x01, 0x07 };

/* Elements in each other: the file, and eight more, each of two octets. */
enum { DEEPEST = 2 * LAMPHUDET_DEPTH_MAX, TOO_DEEP = DEEPEST + 2 };

static int is(lamphudet_answer answer, uint32_t number, uint64_t value)
{
    return answer.number == number && answer.expected == LAMPHUDET_NO_DIGIT && answer.value == value;
}

static int printed(void)
{
    uint8_t file[sizeof a6 - 1];
    int as_printed;

    memcpy(file, a6, sizeof file);
    as_printed = is(lamphudet_look_inside(file, sizeof file), 0, 5);
    file[OTHER_PERSON] = 0xa0;
    return as_printed && is(lamphudet_look_inside(file, sizeof file), 0, 7);
}

/* The face with one octet another: the answer's number and value. */
static int with(size_t place, uint8_t octet, uint32_t number, uint64_t value)
{
    uint8_t file[FACE];

    memcpy(file, face, sizeof file);
    file[place] = octet;
    return is(lamphudet_look_inside(file, sizeof file), number, value);
}

static int faces(void)
{
    return is(lamphudet_look_inside(face, FACE), 0, 7) && with(0, 0x65, 0, 7) && with(0, 0x6d, 0, 1)
        && with(COUNT, 2, LAMPHUDET_REFUSED_TEMPLATES, GROUP_TEMPLATE)
        && with(COUNT, 0, LAMPHUDET_REFUSED_TEMPLATES, GROUP_TEMPLATE)
        && with(GROUP_TEMPLATE + 1, 0x62, LAMPHUDET_REFUSED_TEMPLATES, 0)
        && with(0, 0x66, LAMPHUDET_REFUSED_ENCODING, 0) && with(PICTURE + 1, 0x80, LAMPHUDET_REFUSED_ENCODING, PICTURE)
        && with(PICTURE + 2, 2, LAMPHUDET_REFUSED_ENCODING, PICTURE)
        && is(lamphudet_look_inside(face, FACE - 1), LAMPHUDET_REFUSED_ENCODING, 0)
        && is(lamphudet_look_inside(NULL, 0), LAMPHUDET_REFUSED_ENCODING, 0);
}

static int depths(void)
{
    uint8_t file[TOO_DEEP + 1];
    size_t at;

    for (at = 0; at < TOO_DEEP; at += 2) {
        file[at] = at == 0 ? 0x61 : 0x30;
        file[at + 1] = (uint8_t)(TOO_DEEP - at - 2);
    }
    file[TOO_DEEP] = 0;
    /* The ninth, then as if it were cut off; and without it, in a file that ends before it. */
    if (!is(lamphudet_look_inside(file, TOO_DEEP), LAMPHUDET_REFUSED_DEPTH, DEEPEST)) {
        return 0;
    }
    file[TOO_DEEP - 1] = 1;
    if (!is(lamphudet_look_inside(file, TOO_DEEP), LAMPHUDET_REFUSED_ENCODING, DEEPEST)) {
        return 0;
    }
    for (at = 0; at < DEEPEST; at += 2) {
        file[at + 1] = (uint8_t)(DEEPEST - at - 2);
    }
    return is(lamphudet_look_inside(file, DEEPEST), 0, LAMPHUDET_DEPTH_MAX)
        && is(lamphudet_look_inside(file, DEEPEST + 1), LAMPHUDET_REFUSED_ENCODING, DEEPEST);
}

/* Empty elements, and a first one of one octet: as many as can be. */
static int longest(void)
{
    static uint8_t file[LAMPHUDET_FILE_MAX + 1];
    size_t at;

    file[0] = 0x61, file[1] = 0x82, file[2] = 0xff, file[3] = 0xff;
    file[4] = 0x04, file[5] = 0x01;
    for (at = 7; at < LAMPHUDET_FILE_MAX; at += 2) {
        file[at] = 0x04;
    }
    return is(lamphudet_look_inside(file, LAMPHUDET_FILE_MAX), 0, 32768)
        && is(lamphudet_look_inside(file, LAMPHUDET_FILE_MAX + 1), LAMPHUDET_REFUSED_ENCODING, LAMPHUDET_FILE_MAX);
}

int main(void)
{
    int counted = printed() && longest();
    int held = faces();
    int deep = depths();

    printf("elements %s, a face %s, depths %s\n", counted ? "counted" : "NOT counted", held ? "right" : "WRONG",
           deep ? "right" : "WRONG");
    return !(counted && held && deep);
}
