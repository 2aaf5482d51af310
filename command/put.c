/* put: files into a volume. They are read before the image is locked, so that nobody waits for a slow one. */
#define _POSIX_C_SOURCE 200809L
#include <fcntl.h>
#include <stdio.h>
#include <stdlib.h>
#include <string.h>
#include <unistd.h>

#include "change.h"
#include "commands.h"
#include "words.h"

/*
 * The files' bytes lie one behind the other in IMAGE_ROOM bytes. Files that do not fit are cut short or left empty; but then
 * what is there is longer than any volume, so that one of the files up to the first that was cut is refused (16 at the
 * latest), and nothing changes.
 */
struct sources {
    char **names;
    int count;
    size_t *ends; /* of each file's bytes */
    uint8_t *bytes;
};

static int read_source(const char *name, uint8_t *bytes, size_t room, size_t *length) {
    int file = is_standard_input(name) ? STDIN_FILENO : open(name, O_RDONLY | O_CLOEXEC);
    if (file < 0)
        return system_error("%s", name);
    int status = read_bytes(file, bytes, room, length) == 0 ? 0 : system_error("%s", name);
    if (file != STDIN_FILENO)
        close(file);
    return status;
}

static int read_sources(struct sources *sources) {
    size_t end = 0;
    int status = 0;
    sources->bytes = take_zeros(IMAGE_ROOM);
    sources->ends = calloc((size_t)sources->count, sizeof *sources->ends);
    if (sources->bytes == NULL || sources->ends == NULL)
        return system_error("memory");
    for (int i = 0; status == 0 && i < sources->count; i++) {
        size_t length = 0;
        status = read_source(sources->names[i], sources->bytes + end, IMAGE_ROOM - end, &length);
        sources->ends[i] = end += length;
    }
    return status;
}

static bool is_directory(const struct image *image, const char *path) {
    struct sfs_entry found = sfs_find(image->bytes, image->length, (const uint8_t *)path, strlen(path));
    return found.refusal == SFS_OK && found.kind == SFS_DIRECTORY;
}

static const char *base_name(const char *name) {
    const char *slash = strrchr(name, '/');
    return slash != NULL ? slash + 1 : name;
}

static uint32_t create(const struct change *change, const char *path, const uint8_t *bytes, size_t length) {
    return sfs_create_file(change->image.bytes, change->image.length, (const uint8_t *)path, strlen(path), bytes, length,
                           change->stamp);
}

/* Of one file that was put the image takes the blocks. */
static int take_file(struct change *change, const char *path) {
    struct range region;
    uint32_t refusal = image_region(&change->image, path, &region);
    return refusal == SFS_OK ? image_take_region(&change->image, region) : change_status(change, path, refusal);
}

/* Puts bytes at directory/name, or at the name where the directory is the top, NULL. */
static int put_bytes(struct change *change, const char *directory, const char *name, const uint8_t *bytes, size_t length) {
    const struct sources *sources = change->more;
    size_t room = (directory != NULL ? strlen(directory) + 1 : 0) + strlen(name) + 1;
    char *path = malloc(room);
    if (path == NULL)
        return system_error("memory");
    snprintf(path, room, "%s%s%s", directory != NULL ? directory : "", directory != NULL ? "/" : "", name);
    int status = change_status(change, path, create(change, path, bytes, length));
    if (status == 0 && sources->count == 1)
        status = take_file(change, path);
    free(path);
    return status;
}

static int put_below(struct change *change, const char *directory) {
    const struct sources *sources = change->more;
    size_t start = 0;
    int status = 0;
    for (int i = 0; status == 0 && i < sources->count; i++) {
        const char *name = sources->names[i];
        if (is_standard_input(name))
            return usage_error(change->arguments->command, "standard input has no name; PATH must be the file's own");
        status = put_bytes(change, directory, base_name(name), sources->bytes + start, sources->ends[i] - start);
        start = sources->ends[i];
    }
    return status;
}

/* A path that is a directory is found to be there when a file is to be put in its place, which saves asking before. */
static int put_one(struct change *change, const char *path) {
    const struct sources *sources = change->more;
    uint32_t refusal = create(change, path, sources->bytes, sources->ends[0]);
    if (refusal == SFS_EXISTS && is_directory(&change->image, path))
        return put_below(change, path);
    return refusal == SFS_OK ? take_file(change, path) : change_status(change, path, refusal);
}

/* To find each file's blocks would take as long as to put it: the data area is read before, and taken as a whole. */
static int put_several(struct change *change, const char *directory) {
    int status = image_read_between(&change->image);
    if (status == 0)
        status = put_below(change, directory);
    return status == 0 ? change_status(change, NULL, image_take_data_area(&change->image)) : status;
}

/* As cp: several files go into a directory, and one does where the path is a directory; else the path is the new file's. */
static int put(struct change *change) {
    const struct sources *sources = change->more;
    const char *path = change->arguments->operands[change->arguments->operand_count - 1];
    const char *directory = strcmp(path, "/") == 0 ? NULL : path;
    if (sources->count > 1)
        return put_several(change, directory);
    return directory == NULL ? put_below(change, NULL) : put_one(change, path);
}

int run_put(const struct arguments *arguments) {
    struct sources sources = {.names = arguments->operands + 1, .count = arguments->operand_count - 2};
    int status = read_sources(&sources);
    if (status == 0)
        status = change_image(arguments, put, &sources);
    free(sources.ends);
    return status;
}
