#define _POSIX_C_SOURCE 200809L
#include "arguments.h"

#include <stdio.h>
#include <string.h>
#include <time.h>

#include "dates.h"
#include "words.h"

/* A letter or a name, or both. Only options with names take values. */
static const struct form {
    char letter;
    const char *name;
    const char *value;
    const char *purpose;
} forms[OPTIONS] = {
    [OPTION_SIZE] = {0, "size", "N[K|M]", "the image's length: bytes, KiB or MiB"},
    [OPTION_EDITION] = {0, "edition", "1.0|1.10", "the volume's edition; 1.0 where none is given"},
    [OPTION_BLOCK_LENGTH] = {0, "block-length", "N", "256, 512, 1024, 2048 or 4096 bytes; 512 where none is given"},
    [OPTION_RESERVED] = {0, "reserved", "N", "reserved blocks; the fewest that cover 512 bytes where none is given"},
    [OPTION_NAME] = {0, "name", "NAME", "the volume's name; empty where none is given"},
    [OPTION_FORCE] = {0, "force", NULL, "format also what holds something already, which is lost"},
    [OPTION_LONG] = {'l', "long", NULL, "kind, length, date and path of each entry"},
    [OPTION_ONE] = {'1', NULL, NULL, "bare paths, for scripts"},
    [OPTION_KEEP] = {0, "keep", NULL, "wipe nothing; in edition 1.0 'sfs restore' can bring it back until a reclaim"},
    [OPTION_STAMP] = {0, "stamp", "S", "the time to store: 2026-11-17T12:00:00Z, or 1/65536 seconds from 1970; else now"},
    [OPTION_HELP] = {0, "help", NULL, "print this help"},
};

bool given(const struct arguments *arguments, enum option option) {
    return arguments->values[option] != NULL;
}

static enum option by_name(unsigned allowed, const char *name, size_t length) {
    for (enum option option = 0; option < OPTIONS; option++) {
        const char *own = forms[option].name;
        if ((allowed & OPTION(option)) && own != NULL && strlen(own) == length && memcmp(own, name, length) == 0)
            return option;
    }
    return OPTIONS;
}

static enum option by_letter(unsigned allowed, char letter) {
    for (enum option option = 0; option < OPTIONS; option++)
        if ((allowed & OPTION(option)) && forms[option].letter == letter)
            return option;
    return OPTIONS;
}

/* NAME, NAME=VALUE, or NAME and the value in what follows, which is taken whatever it looks like: a stamp may be -1. */
static int take_name(struct arguments *arguments, unsigned allowed, const char *text, char ***following) {
    size_t length = strcspn(text, "=");
    const char *value = text[length] == '=' ? text + length + 1 : NULL;
    enum option option = by_name(allowed, text, length);
    if (option == OPTIONS)
        return usage_error(arguments->command, "there is no option --%.*s", (int)length, text);
    if (forms[option].value == NULL && value != NULL)
        return usage_error(arguments->command, "--%s takes no value", forms[option].name);
    if (forms[option].value == NULL)
        value = "";
    else if (value == NULL && **following != NULL)
        value = *(*following)++;
    if (value == NULL)
        return usage_error(arguments->command, "--%s needs a value", forms[option].name);
    arguments->values[option] = value;
    return 0;
}

static int take_letters(struct arguments *arguments, unsigned allowed, const char *letters) {
    for (; *letters != '\0'; letters++) {
        enum option option = by_letter(allowed, *letters);
        if (option == OPTIONS)
            return usage_error(arguments->command, "there is no option -%c", *letters);
        arguments->values[option] = "";
    }
    return 0;
}

int arguments_read(struct arguments *arguments, unsigned allowed, char **list) {
    bool options = true;
    int status = 0;
    arguments->operands = list;
    arguments->operand_count = 0;
    while (status == 0 && *list != NULL) {
        char *text = *list++;
        if (!options || text[0] != '-' || text[1] == '\0')
            arguments->operands[arguments->operand_count++] = text;
        else if (strcmp(text, "--") == 0)
            options = false;
        else if (text[1] == '-')
            status = take_name(arguments, allowed, text + 2, &list);
        else
            status = take_letters(arguments, allowed, text + 1);
    }
    return status;
}

/* The number that the text begins with, and what follows it; NULL where no digit is, or more than 64 bits. */
static const char *read_digits(const char *text, unsigned base, uint64_t *number) {
    static const char digits[] = "0123456789abcdef";
    const char *rest = text;
    *number = 0;
    for (;; rest++) {
        char lower = *rest >= 'A' && *rest <= 'F' ? (char)(*rest - 'A' + 'a') : *rest;
        const char *digit = lower != '\0' ? memchr(digits, lower, base) : NULL;
        if (digit == NULL)
            return rest > text ? rest : NULL;
        uint64_t value = (uint64_t)(digit - digits);
        if (*number > (UINT64_MAX - value) / base)
            return NULL;
        *number = *number * base + value;
    }
}

static int not_a(const char *what, const struct arguments *arguments, enum option option) {
    return usage_error(arguments->command, "--%s: %s is no %s", forms[option].name, arguments->values[option], what);
}

int arguments_number(const struct arguments *arguments, enum option option, uint64_t *number) {
    if (!given(arguments, option))
        return 0;
    const char *rest = read_digits(arguments->values[option], 10, number);
    return rest != NULL && *rest == '\0' ? 0 : not_a("number", arguments, option);
}

int arguments_size(const struct arguments *arguments, uint64_t *size) {
    if (!given(arguments, OPTION_SIZE))
        return 0;
    const char *rest = read_digits(arguments->values[OPTION_SIZE], 10, size);
    if (rest == NULL)
        return not_a("size", arguments, OPTION_SIZE);
    unsigned shift = *rest == 'K' ? 10 : *rest == 'M' ? 20 : 0;
    if (rest[shift != 0] != '\0' || *size > UINT64_MAX >> shift)
        return not_a("size", arguments, OPTION_SIZE);
    *size <<= shift;
    return 0;
}

/* Hexadecimal digits are the 64 bits as they are stored; a decimal number has a sign or none. */
static bool stamp_of_number(const char *text, int64_t *stamp) {
    bool hexadecimal = strncmp(text, "0x", 2) == 0, negative = text[0] == '-';
    const char *digits = text + (hexadecimal ? 2 : negative || text[0] == '+' ? 1 : 0);
    uint64_t number;
    const char *rest = read_digits(digits, hexadecimal ? 16 : 10, &number);
    if (rest == NULL || *rest != '\0' || (!hexadecimal && number > (uint64_t)INT64_MAX + negative))
        return false;
    number = negative ? 0 - number : number;
    memcpy(stamp, &number, sizeof *stamp);
    return true;
}

static int64_t now(void) {
    struct timespec time;
    clock_gettime(CLOCK_REALTIME, &time);
    return (int64_t)time.tv_sec * 65536 + (int64_t)time.tv_nsec * 65536 / 1000000000;
}

int arguments_stamp(const struct arguments *arguments, int64_t *stamp) {
    const char *text = arguments->values[OPTION_STAMP];
    if (text == NULL)
        *stamp = now();
    else if (!stamp_of_number(text, stamp) && !stamp_of_date(text, stamp))
        return not_a("stamp", arguments, OPTION_STAMP);
    return 0;
}

#define PURPOSE_COLUMN 22 /* wider than every form */

/* "-l|--long", "--size N[K|M]"; gives its length. */
static int print_form(enum option option) {
    const struct form *form = &forms[option];
    int length = 0;
    if (form->letter != 0)
        length += printf("-%c", form->letter);
    if (form->name != NULL)
        length += printf("%s--%s", form->letter != 0 ? "|" : "", form->name);
    if (form->value != NULL)
        length += printf(" %s", form->value);
    return length;
}

void print_forms(unsigned allowed) {
    for (enum option option = 0; option < OPTION_HELP; option++)
        if (allowed & OPTION(option)) {
            putchar('[');
            print_form(option);
            fputs("] ", stdout);
        }
}

void print_options(unsigned allowed) {
    for (enum option option = 0; option < OPTIONS; option++)
        if (allowed & OPTION(option)) {
            fputs("  ", stdout);
            int length = print_form(option);
            printf("%*s%s\n", PURPOSE_COLUMN - length, "", forms[option].purpose);
        }
}
