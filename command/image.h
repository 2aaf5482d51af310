/* An image in memory, or those parts of it that matter. */
#ifndef IMAGE_H
#define IMAGE_H

#include <stdbool.h>
#include <stddef.h>
#include <stdint.h>
#include <sys/stat.h>

#include <sfs.h>

#include "files.h"

/* One byte more than a volume can have: of what is longer no more is read, and the library refuses it by its length. */
#define IMAGE_ROOM ((size_t)SFS_IMAGE_MAX + 1)

/* The parts that are in memory, in their order. They begin and end with pieces; the last ends with the image. */
enum part {
    PART_HEAD, /* the super-block's piece */
    PART_BODY, /* blocks that calls write; empty at first */
    PART_TAIL, /* an index area of any length */
    PARTS
};

struct image {
    const char *name;          /* as a person is told it */
    uint8_t *bytes;            /* IMAGE_ROOM of them, zeros where nothing was read or written */
    size_t length;             /* at most IMAGE_ROOM */
    struct range parts[PARTS]; /* outside of them the image has the file's bytes, and behind its end zeros */
    int file;
    size_t held;               /* bytes of the file, IMAGE_ROOM at most */
    bool holes;                /* the file has some */
};

/* Whether a file's name means standard input. */
bool is_standard_input(const char *name);

/* Loads an image's head and tail to look at it; the name - is standard input. */
int image_read(struct image *image, const char *name);

/* The same of an open regular file, as if it were of a length. */
int image_load(struct image *image, const char *name, int file, size_t held, size_t length);

/* As much of a file's length as matters. */
size_t image_length(const struct stat *file);

/* Reads a range that no call has written, or all between head and tail; for a call that is to find it there. */
int image_read_range(const struct image *image, struct range range);
int image_read_between(const struct image *image);

/* Where the blocks of a live path lie, whatever a file's length is; nowhere where it has none. Gives the library's refusal. */
uint32_t image_region(const struct image *image, const char *path, struct range *region);

/* Makes the body what a call has written between head and tail, with what its pieces hold beside that. */
int image_take_region(struct image *image, struct range written);

/* Makes the body the data area as it is now; all between head and tail was read before the calls. */
uint32_t image_take_data_area(struct image *image);

/* For a command that loads several; else the memory is kept until the command ends. */
void image_free(struct image *image);

#endif
