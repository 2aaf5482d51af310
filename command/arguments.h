/* A command's options and operands. */
#ifndef ARGUMENTS_H
#define ARGUMENTS_H

#include <stdbool.h>
#include <stdint.h>

enum option {
    OPTION_SIZE,
    OPTION_EDITION,
    OPTION_BLOCK_LENGTH,
    OPTION_RESERVED,
    OPTION_NAME,
    OPTION_FORCE,
    OPTION_LONG,
    OPTION_ONE,
    OPTION_KEEP,
    OPTION_STAMP,
    OPTION_HELP,
    OPTIONS
};

/* A set of options. */
#define OPTION(option) (1u << (option))

struct arguments {
    const char *command;
    const char *values[OPTIONS]; /* NULL where it was not given, "" where it takes none */
    char **operands;
    int operand_count;
};

/* Splits what stands behind the command's name, a list that NULL ends and that is put in order: operands first. */
int arguments_read(struct arguments *arguments, unsigned allowed, char **list);

bool given(const struct arguments *arguments, enum option option);

/* The numbers of options. Where one was not given, the number stays as it is; now is the stamp that was not given. */
int arguments_number(const struct arguments *arguments, enum option option, uint64_t *number);
int arguments_size(const struct arguments *arguments, uint64_t *size);
int arguments_stamp(const struct arguments *arguments, int64_t *stamp);

/* For help: "[--size N[K|M]] " for each option of the set, and a line on what each does. */
void print_forms(unsigned allowed);
void print_options(unsigned allowed);

#endif
