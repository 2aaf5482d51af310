/* sfs: looks at volume images and changes them, one command at a time. */
#define _XOPEN_SOURCE 700 /* SIGXFSZ */
#include <fcntl.h>
#include <limits.h>
#include <signal.h>
#include <stdio.h>
#include <string.h>
#include <unistd.h>

#include <sfs.h>

#include "commands.h"
#include "image.h"
#include "words.h"

#define STAMP OPTION(OPTION_STAMP)
#define FORMAT_OPTIONS \
    (OPTION(OPTION_SIZE) | OPTION(OPTION_EDITION) | OPTION(OPTION_BLOCK_LENGTH) | OPTION(OPTION_RESERVED) | OPTION(OPTION_NAME) \
     | OPTION(OPTION_FORCE) | STAMP)
#define LS_OPTIONS (OPTION(OPTION_LONG) | OPTION(OPTION_ONE))
#define RM_OPTIONS (OPTION(OPTION_KEEP) | STAMP)
#define REPORT_LIMITS \
    "It uses the first 1,000 names, of at most 255 bytes each, and images of at most 65,536 bytes:\n" \
    "a longer name is unread, a longer image is refused with 1.\n"

static const struct command {
    const char *name;
    const char *operands;
    const char *purpose;
    int fewest, most; /* operands */
    bool changes;     /* the first of them, its IMAGE */
    unsigned options;
    int (*run)(const struct arguments *arguments);
    const char *limits; /* lines that its own help alone has */
} commands[] = {
    {"format", "IMAGE", "make an empty volume", 1, 1, true, FORMAT_OPTIONS, run_format, ""},
    {"info", "IMAGE", "print a volume's numbers", 1, 1, false, 0, run_info, ""},
    {"ls", "IMAGE [PATH]", "list a volume, or what is at a path and below it", 1, 2, false, LS_OPTIONS, run_ls, ""},
    {"cat", "IMAGE PATH...", "print the bytes of files", 2, INT_MAX, false, 0, run_cat, ""},
    {"put", "IMAGE FILE... PATH", "put files into a directory, or one under a path of its own", 3, INT_MAX, true, STAMP, run_put, ""},
    {"mkdir", "IMAGE PATH...", "make directories", 2, INT_MAX, true, STAMP, run_mkdir, ""},
    {"rm", "IMAGE PATH...", "delete files and empty directories, and wipe them", 2, INT_MAX, true, RM_OPTIONS, run_rm, ""},
    {"restore", "IMAGE PATH...", "bring back what was deleted and kept (edition 1.0)", 2, INT_MAX, true, STAMP, run_restore, ""},
    {"reclaim", "IMAGE", "free what deleted entries hold", 1, 1, true, STAMP, run_reclaim, ""},
    {"check", "IMAGE...", "say whether volumes are good, or which rule they break", 1, INT_MAX, false, 0, run_check, ""},
    {"report", "FILE...", "add up how the images of files are filled", 1, INT_MAX, false, 0, run_report, REPORT_LIMITS},
};

#define COMMANDS (sizeof commands / sizeof *commands)

static const struct command *command_named(const char *name) {
    for (size_t i = 0; i < COMMANDS; i++)
        if (strcmp(commands[i].name, name) == 0)
            return &commands[i];
    return NULL;
}

/* A disk may be full only when the last bytes leave. What went wrong before has been told already. */
static int close_output(int status) {
    int failed = ferror(stdout);
    if ((fclose(stdout) != 0 || failed) && status == 0)
        return system_error("standard output");
    return status;
}

static int print_command_help(const struct command *command) {
    printf("usage: sfs %s ", command->name);
    print_forms(command->options);
    printf("%s\n%s: %s\n%s", command->operands, command->name, command->purpose, command->limits);
    print_options(command->options | OPTION(OPTION_HELP));
    return close_output(0);
}

static int print_help(void) {
    puts("usage: sfs COMMAND [OPTION]... IMAGE ...\n"
         "Looks at Simple File System volumes of editions 1.0 and 1.10, and changes them.");
    for (size_t i = 0; i < COMMANDS; i++)
        printf("  %-9s%s\n", commands[i].name, commands[i].purpose);
    puts("'sfs COMMAND --help' says more of each. IMAGE - is standard input where nothing is changed.\n"
         "The exit status is 0, the number of a refusal (1 to 19), 65 for a usage error, or 66 for a system error.");
    return close_output(0);
}

static int print_version(void) {
    printf("sfs, library interface %u, editions 1.0 and 1.10\n", sfs_api());
    return close_output(0);
}

static int run(const struct command *command, char **list) {
    struct arguments arguments = {.command = command->name};
    int status = arguments_read(&arguments, command->options | OPTION(OPTION_HELP), list);
    if (status != 0)
        return status;
    if (given(&arguments, OPTION_HELP))
        return print_command_help(command);
    if (arguments.operand_count < command->fewest || arguments.operand_count > command->most)
        return usage_error(command->name, "wanted is %s", command->operands);
    if (command->changes && is_standard_input(arguments.operands[0]))
        return usage_error(command->name, "standard input cannot be changed");
    status = command->run(&arguments);
    return command->changes ? status : close_output(status);
}

static int dispatch(char **list) {
    if (list[0] == NULL)
        return usage_error(NULL, "no command");
    if (strcmp(list[0], "--help") == 0)
        return print_help();
    if (strcmp(list[0], "--version") == 0)
        return print_version();
    const struct command *command = command_named(list[0]);
    if (command == NULL)
        return usage_error(NULL, "there is no command %s", list[0]);
    return run(command, list + 1);
}

/* An image could get the number of a closed standard file, and then what is printed. What is opened instead fails when used. */
static void hold_standard_files(void) {
    for (int file = STDIN_FILENO; file <= STDERR_FILENO; file++)
        if (fcntl(file, F_GETFD) < 0 && open("/dev/null", file == STDIN_FILENO ? O_WRONLY : O_RDONLY) != file)
            _exit(STATUS_SYSTEM);
}

int main(int argc, char **argv) {
    hold_standard_files();
    signal(SIGXFSZ, SIG_IGN); /* a limit of file sizes is an error like a full disk, and the new file is removed */
    if (sfs_api() != SFS_API)
        return unsuitable("libsfs", "another interface than the command was built for");
    return dispatch(argv + (argc > 0));
}
