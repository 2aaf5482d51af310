#include "words.h"

#include <errno.h>
#include <stdarg.h>
#include <stdio.h>
#include <string.h>

#include <sfs.h>

static const char *const sentences[] = {
    [SFS_IMAGE_LENGTH] = "too short or too long: a volume has 512 to 16,777,216 bytes",
    [SFS_MAGIC] = "no volume: there is no super-block of either edition",
    [SFS_VERSION] = "a version of the format that is not known",
    [SFS_CHECKSUM] = "the super-block's checksum is wrong",
    [SFS_GEOMETRY] = "the super-block's sizes do not fit the image",
    [SFS_INDEX] = "the index is damaged: a marker, an entry, a name or a sum is wrong",
    [SFS_REGIONS] = "a region out of bounds, or a block in two of them",
    [SFS_PATHS] = "a path that is there twice, or without its directory",
    [SFS_READ_ONLY] = "a later version of edition 1.0, which may only be read",
    [SFS_NAME] = "not an allowed path",
    [SFS_NOT_FOUND] = "no such path",
    [SFS_EXISTS] = "this path is there already",
    [SFS_NO_DIRECTORY] = "its directory is not there",
    [SFS_NOT_EMPTY] = "the directory is not empty",
    [SFS_NO_SLOTS] = "no room in the index for another entry",
    [SFS_NO_BLOCKS] = "no free run of blocks is long enough",
    [SFS_NOT_A_FILE] = "a directory, not a file",
    [SFS_OUTPUT_TOO_SHORT] = "the command lent too little memory, which is a fault of its own",
    [SFS_AMBIGUOUS] = "two or more deleted entries have this path, and none is chosen",
};

#define SENTENCES (sizeof sentences / sizeof *sentences)

/* Where a command means something else by a number. */
static const struct {
    const char *command;
    uint32_t refusal;
    const char *sentence;
} particular[] = {
    {"format", SFS_IMAGE_LENGTH, "too short or too long: a volume is made in 1,024 to 16,777,216 bytes"},
    {"format", SFS_GEOMETRY,
     "no volume has these sizes: blocks of 256, 512, 1024, 2048 or 4096 bytes fill it, the reserved ones cover 512 bytes, "
     "and two more are left"},
    {"format", SFS_NAME, "not an allowed volume name"},
    {"restore", SFS_NOT_FOUND, "no deleted entry has this path"},
    {"restore", SFS_EXISTS, "this path is there again"},
    {"restore", SFS_NO_DIRECTORY, "its directory is not there, and is to be restored first"},
};

#define PARTICULAR (sizeof particular / sizeof *particular)

static const char *sentence_of(const char *command, uint32_t refusal) {
    for (size_t i = 0; i < PARTICULAR; i++)
        if (particular[i].refusal == refusal && strcmp(particular[i].command, command) == 0)
            return particular[i].sentence;
    return refusal < SENTENCES ? sentences[refusal] : "a refusal that this command does not know";
}

/* What was printed before comes before, also where both outputs are one. */
static void begin_line(void) {
    fflush(stdout);
    fputs("sfs: ", stderr);
}

int refused(const char *command, const char *image, const char *path, uint32_t refusal) {
    begin_line();
    fprintf(stderr, "%s: ", image);
    if (path != NULL && refusal >= SFS_NAME) /* the numbers before are about the image, whatever the path */
        fprintf(stderr, "%s: ", path);
    fprintf(stderr, "%s (%u)\n", sentence_of(command, refusal), refusal);
    return (int)refusal;
}

int usage_error(const char *command, const char *format, ...) {
    va_list arguments;
    begin_line();
    if (command != NULL)
        fprintf(stderr, "%s: ", command);
    va_start(arguments, format);
    vfprintf(stderr, format, arguments);
    va_end(arguments);
    fprintf(stderr, "; see 'sfs%s%s --help'\n", command != NULL ? " " : "", command != NULL ? command : "");
    return STATUS_USAGE;
}

int system_error(const char *format, ...) {
    const char *meaning = strerror(errno);
    va_list arguments;
    begin_line();
    va_start(arguments, format);
    vfprintf(stderr, format, arguments);
    va_end(arguments);
    fprintf(stderr, ": %s\n", meaning);
    return STATUS_SYSTEM;
}

int unsuitable(const char *file, const char *why) {
    begin_line();
    fprintf(stderr, "%s: %s\n", file, why);
    return STATUS_SYSTEM;
}
