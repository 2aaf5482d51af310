/* ls: the live entries, in the order of their paths. */
#include <inttypes.h>
#include <stdio.h>
#include <string.h>

#include "commands.h"
#include "dates.h"
#include "entries.h"
#include "words.h"

typedef void print_entry(const struct entry *entry);

static void print_path(const struct entry *entry) {
    fwrite(entry->path, 1, entry->path_length, stdout);
}

static void print_bare(const struct entry *entry) {
    print_path(entry);
    putchar('\n');
}

static void print_marked(const struct entry *entry) {
    print_path(entry);
    fputs(entry->kind == SFS_DIRECTORY ? "/\n" : "\n", stdout);
}

/* The line of the listing program. */
static void print_long(const struct entry *entry) {
    char date[DATE_ROOM];
    date_of_stamp(entry->stamp, date);
    printf("%c %" PRIu64 " %s ", entry->kind == SFS_DIRECTORY ? 'D' : 'F', entry->length, date);
    print_bare(entry);
}

/* Whether the entry is the path's or lies below it; the top, NULL, has all below it. */
static bool belongs(const struct entry *entry, const char *path) {
    if (path == NULL)
        return true;
    size_t length = strlen(path);
    return entry->path_length >= length && memcmp(entry->path, path, length) == 0
        && (entry->path_length == length || entry->path[length] == '/');
}

static size_t print_below(const struct entries *entries, const char *path, print_entry *print) {
    size_t printed = 0;
    for (size_t i = 0; i < entries->count; i++)
        if (belongs(&entries->list[i], path)) {
            print(&entries->list[i]);
            printed++;
        }
    return printed;
}

static int list(const char *command, const struct image *image, const char *path, print_entry *print) {
    struct entries entries;
    uint32_t refusal = entries_read(&entries, image);
    /* Why there is nothing of a path, the library says: it may be not there or not allowed. */
    if (refusal == SFS_OK && print_below(&entries, path, print) == 0 && path != NULL)
        refusal = sfs_find(image->bytes, image->length, (const uint8_t *)path, strlen(path)).refusal;
    entries_free(&entries);
    return refusal == SFS_OK ? 0 : refused(command, image->name, path, refusal);
}

int run_ls(const struct arguments *arguments) {
    struct image image;
    const char *path = arguments->operand_count > 1 && strcmp(arguments->operands[1], "/") != 0 ? arguments->operands[1] : NULL;
    print_entry *print = given(arguments, OPTION_LONG) ? print_long : given(arguments, OPTION_ONE) ? print_bare : print_marked;
    if (given(arguments, OPTION_LONG) && given(arguments, OPTION_ONE))
        return usage_error(arguments->command, "-l and -1 exclude each other");
    int status = image_read(&image, arguments->operands[0]);
    return status == 0 ? list(arguments->command, &image, path, print) : status;
}
