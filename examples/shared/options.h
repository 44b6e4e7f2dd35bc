/* The options of a host: each at most once, before the operands. */
#ifndef SHARED_OPTIONS_H
#define SHARED_OPTIONS_H

#include <stddef.h>
#include <stdint.h>

enum option_kind { NOT_TAKEN = 0, FLAG, WORD, NUMBER };

struct option {
    const char *name; /* with its dashes */
    enum option_kind kind;
    const char *given; /* its value, or for a flag its name; NULL where it is not given */
    uint32_t number;   /* of a NUMBER that is given: any that the library can be asked about */
};

struct options {
    const char *taker; /* what takes them, for a message: a command's name, or the program's */
    struct option *at;
    size_t count;
};

/* The words of a command line that are still to be read. */
struct words {
    char **at;
    int count;
};

/* Leaves the first ones behind, which were read. */
void skip(struct words *words, int count);

enum asked { TO_WORK, FOR_HELP, FOR_VERSION, FOR_NOTHING };

/*
 * Takes the options at the head of the words, and the -- that ends them. Gives what the command line
 * asks for: to work, or for help (--help, -h) or the version. For nothing where a word is wrong,
 * which is told.
 */
enum asked options_take(struct options *options, struct words *words);

/* Tells in one line what is wrong with a command line, as printf formats it, and where help is. */
void misused(const char *format, ...);

/* Prints a host's version, which is the library's. */
void show_version(void);

#endif
