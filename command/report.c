/* report: how the images of files are filled, all of them together. */
#define _POSIX_C_SOURCE 200809L
#include <fcntl.h>
#include <stdio.h>
#include <string.h>
#include <unistd.h>

#include <sfs.h>

#include "commands.h"
#include "files.h"
#include "words.h"

/* What the report program takes: so many names, of so many bytes. */
#define NAMES_MAX 1000
#define NAME_BYTES_MAX ((size_t)255)

/* One byte more than an image of a report can have: of what is longer no more is read, and the library refuses it by its length. */
#define REPORT_ROOM ((size_t)SFS_REPORT_IMAGE_MAX + 1)

/* A name that the report program does not take is not opened either. The file - is one of that name. */
static int open_named(const char *name) {
    size_t length = strlen(name);
    return length > 0 && length <= NAME_BYTES_MAX ? open(name, O_RDONLY | O_CLOEXEC) : -1;
}

/* Unlike in image.c, all bytes of the image that is judged are read, those between super-block and index too: a failed read of any makes the file unread. */
static bool read_image(const char *name, uint8_t *bytes, size_t *length) {
    int file = open_named(name);
    if (file < 0)
        return false;
    bool whole = read_bytes(file, bytes, REPORT_ROOM, length) == 0;
    close(file);
    return whole;
}

/* Unread or refused, it is a part of the report and no error. */
static void count(uint64_t *report, const char *name) {
    static uint8_t bytes[REPORT_ROOM];
    size_t length;
    if (read_image(name, bytes, &length))
        sfs_report_add(bytes, length, report, SFS_REPORT_NUMBERS);
    else
        report[SFS_REPORT_UNREAD]++;
}

/* It leaves at once, so that what is told behind it is not told instead of a full disk. */
static int print_report(const char *command, const uint64_t *report) {
    uint8_t text[SFS_REPORT_ROOM];
    struct sfs_content found = sfs_report_text(report, SFS_REPORT_NUMBERS, text, sizeof text);
    if (found.refusal != SFS_OK)
        return refused(command, command, NULL, found.refusal);
    size_t length = (size_t)found.length;
    return fwrite(text, 1, length, stdout) == length && fflush(stdout) == 0 ? 0 : system_error("standard output");
}

int run_report(const struct arguments *arguments) {
    uint64_t report[SFS_REPORT_NUMBERS] = {0};
    int used = arguments->operand_count < NAMES_MAX ? arguments->operand_count : NAMES_MAX;
    for (int i = 0; i < used; i++)
        count(report, arguments->operands[i]);
    int status = print_report(arguments->command, report);
    if (status == 0 && used < arguments->operand_count)
        status = usage_error(arguments->command, "of %d names only the first %d were used", arguments->operand_count, NAMES_MAX);
    return status;
}
