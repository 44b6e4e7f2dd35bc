#include "options.h"

#include "number.h"
#include "program.h"

#include <lamphudet.h>
#include <stdarg.h>
#include <stdio.h>
#include <string.h>

void misused(const char *format, ...)
{
    va_list words;

    fprintf(stderr, "%s: ", program);
    va_start(words, format);
    vfprintf(stderr, format, words);
    va_end(words);
    fprintf(stderr, "; %s --help says more\n", program);
}

void show_version(void)
{
    printf("%s %s\n", program, LAMPHUDET_VERSION);
}

/* The option that a word names, up to a = in it. NULL where there is none. */
static struct option *named(struct options *options, const char *word)
{
    size_t len = strcspn(word, "=");
    size_t at;

    for (at = 0; at < options->count; at++) {
        struct option *option = &options->at[at];

        if (option->kind != NOT_TAKEN && strlen(option->name) == len && strncmp(option->name, word, len) == 0) {
            return option;
        }
    }
    return NULL;
}

/* 0 where the value will not do, which is told. */
static int give(struct option *option, const char *value)
{
    if (option->given != NULL) {
        misused("%s is given twice", option->name);
        return 0;
    }
    if (option->kind == WORD && value[0] == '\0') {
        misused("%s is given an empty name", option->name);
        return 0;
    }
    option->given = value;
    if (option->kind == NUMBER && !number_of(value, &option->number)) {
        misused("%s is given '%s', which is no number up to %lu", option->name, value, (unsigned long)UINT32_MAX);
        return 0;
    }
    return 1;
}

void skip(struct words *words, int count)
{
    words->at += count;
    words->count -= count;
}

/* The option at the head of the words, with its value. */
static int take(struct options *options, struct words *words)
{
    const char *word = words->at[0];
    const char *equals = strchr(word, '=');
    struct option *option = named(options, word);

    if (option == NULL) {
        misused("%s takes no option %.*s", options->taker, (int)strcspn(word, "="), word);
        return 0;
    }
    if (option->kind == FLAG) {
        skip(words, 1);
        if (equals != NULL) {
            misused("%s takes no value", option->name);
        }
        return equals == NULL && give(option, option->name);
    }
    if (equals == NULL && words->count == 1) {
        misused("%s is given without its value", option->name);
        return 0;
    }
    skip(words, equals == NULL ? 2 : 1);
    return give(option, equals == NULL ? words->at[-1] : equals + 1);
}

enum asked options_take(struct options *options, struct words *words)
{
    /* A dash alone is an operand: standard input. */
    while (words->count > 0 && words->at[0][0] == '-' && words->at[0][1] != '\0') {
        const char *word = words->at[0];

        if (strcmp(word, "--") == 0) {
            skip(words, 1);
            return TO_WORK;
        }
        if (strcmp(word, "--help") == 0 || strcmp(word, "-h") == 0) {
            return FOR_HELP;
        }
        if (strcmp(word, "--version") == 0) {
            return FOR_VERSION;
        }
        if (!take(options, words)) {
            return FOR_NOTHING;
        }
    }
    return TO_WORK;
}
