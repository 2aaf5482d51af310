/*
 * An image is read, not mapped. What the library has judged no other program can change then, and a file that is cut short
 * meanwhile is an error rather than a signal.
 *
 * Not all of it is read, as most of the time would go there. A volume is judged by its super-block, which lies in the first
 * 512 bytes, and its index, which lies in the last SFS_INDEX_MAX; and beside these a call writes the blocks of the file that it
 * creates or wipes, and reads those of the file that it reads, and no other byte (docs/RULES.md; the library's contracts say so).
 * What lies between is read only where a call is to find it there.
 */
#define _POSIX_C_SOURCE 200809L
#include "image.h"

#include <errno.h>
#include <fcntl.h>
#include <string.h>
#include <unistd.h>

#include "words.h"

bool is_standard_input(const char *name) {
    return strcmp(name, "-") == 0;
}

size_t image_length(const struct stat *file) {
    return file->st_size < (off_t)IMAGE_ROOM ? (size_t)file->st_size : IMAGE_ROOM;
}

static size_t pieces_below(size_t at) {
    return at / PIECE * PIECE;
}

/* Of an image so short that head and tail would meet, the tail is all behind the head. */
static void lay_parts(struct image *image, size_t head) {
    size_t tail = image->length > head + SFS_INDEX_MAX ? pieces_below(image->length - SFS_INDEX_MAX) : head;
    image->parts[PART_HEAD] = (struct range){0, head};
    image->parts[PART_BODY] = (struct range){head, head};
    image->parts[PART_TAIL] = (struct range){tail, image->length};
}

/* What the head and the tail leave of a range. */
static struct range between(const struct image *image, struct range range) {
    size_t start = image->parts[PART_HEAD].end, end = image->parts[PART_TAIL].start;
    struct range left = {range.start > start ? range.start : start, range.end < end ? range.end : end};
    return left.start < left.end ? left : (struct range){start, start};
}

/* Behind the file's end are zeros already. */
int image_read_range(const struct image *image, struct range range) {
    struct range held = {range.start, range.end < image->held ? range.end : image->held};
    if (held.end > held.start + PIECE)
        touch_pages(image->bytes + held.start, held.end - held.start);
    return read_range(image->file, image->bytes + held.start, held);
}

int image_load(struct image *image, const char *name, int file, size_t held, size_t length) {
    *image = (struct image){.name = name, .bytes = take_zeros(IMAGE_ROOM), .length = length, .file = file, .held = held};
    lay_parts(image, length < PIECE ? length : PIECE);
    if (image->bytes == NULL || image_read_range(image, image->parts[PART_HEAD]) != 0
        || image_read_range(image, image->parts[PART_TAIL]) != 0)
        return system_error("%s", name);
    return 0;
}

/* A pipe or a device is read from where it stands to its end, and is all head. */
static int load_stream(struct image *image, const char *name, int file) {
    *image = (struct image){.name = name, .bytes = take_zeros(IMAGE_ROOM), .file = file};
    if (image->bytes == NULL || read_bytes(file, image->bytes, IMAGE_ROOM, &image->length) != 0)
        return system_error("%s", name);
    lay_parts(image, image->length);
    return 0;
}

int image_read(struct image *image, const char *name) {
    struct stat found;
    bool standard = is_standard_input(name);
    int file = standard ? STDIN_FILENO : open(name, O_RDONLY | O_CLOEXEC);
    if (standard)
        name = "standard input";
    if (file < 0 || fstat(file, &found) != 0)
        return system_error("%s", name);
    size_t length = image_length(&found);
    return S_ISREG(found.st_mode) ? image_load(image, name, file, length, length) : load_stream(image, name, file);
}

/* A file that has been cut short has no bytes there, as a hole has none. */
static int is_as_long(const struct image *image) {
    struct stat now;
    if (fstat(image->file, &now) != 0)
        return -1;
    errno = EIO;
    return now.st_size < (off_t)image->held ? -1 : 0;
}

int image_read_between(const struct image *image) {
    struct range held, left = between(image, (struct range){0, image->held});
    while (next_held(image->file, left, &held)) {
        if (image_read_range(image, held) != 0)
            return system_error("%s", image->name);
        left.start = held.end;
    }
    return is_as_long(image) == 0 ? 0 : system_error("%s", image->name);
}

/* All sizes are below 2^24 in a good volume. No region starts with block 0, which is reserved. */
uint32_t image_region(const struct image *image, const char *path, struct range *region) {
    uint8_t name[SFS_VOLUME_NAME_MAX];
    struct sfs_entry found = sfs_find(image->bytes, image->length, (const uint8_t *)path, strlen(path));
    *region = (struct range){0, 0};
    if (found.refusal != SFS_OK || found.start == 0)
        return found.refusal;
    struct sfs_volume volume = sfs_open(image->bytes, image->length, name, sizeof name);
    if (volume.refusal != SFS_OK)
        return volume.refusal;
    uint64_t past = volume.edition == SFS_VERSION_1_10 ? found.end + 1 : found.end;
    region->start = (size_t)(found.start * volume.block_length);
    region->end = (size_t)(past * volume.block_length);
    return SFS_OK;
}

int image_take_region(struct image *image, struct range written) {
    struct range inside = between(image, written);
    if (inside.start == inside.end)
        return 0;
    struct range body = between(image, (struct range){pieces_below(inside.start), pieces_below(inside.end + PIECE - 1)});
    image->parts[PART_BODY] = body;
    if (image_read_range(image, (struct range){body.start, inside.start}) != 0
        || image_read_range(image, (struct range){inside.end, body.end}) != 0)
        return system_error("%s", image->name);
    return 0;
}

uint32_t image_take_data_area(struct image *image) {
    uint8_t name[SFS_VOLUME_NAME_MAX];
    struct sfs_volume volume = sfs_open(image->bytes, image->length, name, sizeof name);
    size_t start = (size_t)(volume.reserved * volume.block_length);
    size_t end = start + (size_t)(volume.data_blocks * volume.block_length);
    image->parts[PART_BODY] = between(image, (struct range){pieces_below(start), pieces_below(end + PIECE - 1)});
    return volume.refusal;
}

void image_free(struct image *image) {
    free_zeros(image->bytes, IMAGE_ROOM);
    if (image->file != STDIN_FILENO)
        close(image->file);
}
