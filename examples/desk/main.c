/*
 * The desk of a ferry line: reads what passengers show, prints the record or the refusal, and lists what was kept.
 *
 * This file takes the command line apart. A new command is a row of the table and a line of the usage.
 */
#include "command.h"
#include "number.h"
#include "options.h"
#include "program.h"
#include "store.h"
#include "usage.h"

#include <stdio.h>
#include <string.h>

const char program[] = "desk";

enum { HOUSE, FILE_AS_IT_IS, HEX, OUT, OPTIONS };
static struct option options[OPTIONS] = {
    { "--house", NOT_TAKEN, NULL, 1 },
    { "--file", NOT_TAKEN, NULL, 0 },
    { "--hex", NOT_TAKEN, NULL, 0 },
    { "--out", NOT_TAKEN, NULL, 0 },
};

static const struct command {
    const char *name;
    enum option_kind takes[OPTIONS];
    int has_group; /* whether a group's number stands before the operands */
    int of_house;  /* whether what is written is one house's, which must be given */
    enum status (*command)(const struct order *order);
} commands[] = {
    { "text", { NUMBER, WORD, NOT_TAKEN, WORD }, 0, 0, command_text },
    { "presentation", { NUMBER, WORD, WORD, WORD }, 0, 0, command_presentation },
    { "group", { NOT_TAKEN, WORD, WORD, WORD }, 1, 0, command_group },
    { "inside", { NOT_TAKEN, WORD, WORD, NOT_TAKEN }, 0, 0, command_inside },
    { "details", { NOT_TAKEN, WORD, WORD, NOT_TAKEN }, 0, 0, command_details },
    { "run", { NOT_TAKEN, WORD, WORD, NOT_TAKEN }, 0, 0, command_run },
    { "list", { NUMBER, WORD, WORD, WORD }, 0, 1, command_list },
};

static const struct command *named(const char *name)
{
    size_t at;

    for (at = 0; at < sizeof commands / sizeof commands[0]; at++) {
        if (strcmp(name, commands[at].name) == 0) {
            return &commands[at];
        }
    }
    return NULL;
}

/* The number of a group, and options behind it. */
static enum asked take_group(struct order *order, struct options *taken, struct words *words)
{
    if (words->count == 0) {
        misused("group is given without its number");
        return FOR_NOTHING;
    }
    if (!number_of(words->at[0], &order->group)) {
        misused("group is given '%s', which is no number", words->at[0]);
        return FOR_NOTHING;
    }
    skip(words, 1);
    return options_take(taken, words);
}

/* 0 where a command is given two inputs, or an output that it has no use for or cannot fill, which is told. */
static int is_whole(const struct order *order, const struct command *command)
{
    if (order->file != NULL && order->hex != NULL) {
        misused("--file and --hex are both given, and one input is read");
        return 0;
    }
    if ((order->file != NULL || order->hex != NULL) && order->operand_count > 0) {
        misused("'%s' is given beside a file, and one input is read", order->operands[0]);
        return 0;
    }
    if (command->of_house && order->out != NULL && !order->has_house) {
        misused("--out is given without --house, and one house's entries are written");
        return 0;
    }
    return command->has_group || is_place_of_store(order->out);
}

static enum asked understand(struct order *order, const struct command *command, struct words *words)
{
    struct options taken = { NULL, options, OPTIONS };
    enum asked asked;
    size_t at;

    taken.taker = command->name;
    for (at = 0; at < OPTIONS; at++) {
        options[at].kind = command->takes[at];
    }
    asked = options_take(&taken, words);
    if (asked == TO_WORK && command->has_group) {
        asked = take_group(order, &taken, words);
    }
    order->house = options[HOUSE].number;
    order->has_house = options[HOUSE].given != NULL;
    order->file = options[FILE_AS_IT_IS].given;
    order->hex = options[HEX].given;
    order->out = options[OUT].given;
    order->operands = words->at;
    order->operand_count = words->count;
    return asked == TO_WORK && !is_whole(order, command) ? FOR_NOTHING : asked;
}

/* The command's name and all behind it. */
static enum asked understand_command(struct order *order, const struct command **command, struct words *words)
{
    struct options none = { program, options, OPTIONS };
    enum asked asked = options_take(&none, words);

    if (asked != TO_WORK) {
        return asked;
    }
    if (words->count == 0) {
        misused("no command is given");
        return FOR_NOTHING;
    }
    if (strcmp(words->at[0], "help") == 0) {
        return FOR_HELP;
    }
    *command = named(words->at[0]);
    if (*command == NULL) {
        misused("there is no command '%s'", words->at[0]);
        return FOR_NOTHING;
    }
    skip(words, 1);
    return understand(order, *command, words);
}

int main(int count, char **words)
{
    struct words left = { words + 1, count - 1 };
    struct order order = { 1, 0, 0, NULL, NULL, NULL, NULL, 0 };
    const struct command *command = NULL;

    switch (understand_command(&order, &command, &left)) {
    case TO_WORK: return done(command->command(&order));
    case FOR_HELP: fputs(usage, stdout); return done(ALL_ACCEPTED);
    case FOR_VERSION: show_version(); return done(ALL_ACCEPTED);
    default: return NOT_DONE;
    }
}
