/* cat: the bytes of files. */
#include <stdio.h>
#include <string.h>

#include "commands.h"
#include "image.h"
#include "words.h"

/* No file is longer than the image, so that one piece of memory serves any file. */
static int print_file(const char *command, const struct image *image, const char *path, uint8_t *room) {
    struct sfs_content found =
        sfs_read(image->bytes, image->length, (const uint8_t *)path, strlen(path), room, IMAGE_ROOM);
    if (found.refusal != SFS_OK)
        return refused(command, image->name, path, found.refusal);
    size_t length = (size_t)found.length;
    return fwrite(room, 1, length, stdout) == length ? 0 : system_error("standard output");
}

/* To find the blocks of a file takes a judgement of the volume more, which is worth it for one, and not for many. */
static int read_blocks(const struct arguments *arguments, const struct image *image) {
    struct range region;
    if (arguments->operand_count > 2)
        return image_read_between(image);
    if (image_region(image, arguments->operands[1], &region) != SFS_OK)
        return 0; /* the same refusal comes of the read */
    return image_read_range(image, region) == 0 ? 0 : system_error("%s", image->name);
}

int run_cat(const struct arguments *arguments) {
    struct image image;
    int status = image_read(&image, arguments->operands[0]);
    if (status != 0)
        return status;
    uint8_t *room = take_zeros(IMAGE_ROOM);
    if (room == NULL)
        return system_error("memory");
    status = read_blocks(arguments, &image);
    for (int i = 1; status == 0 && i < arguments->operand_count; i++)
        status = print_file(arguments->command, &image, arguments->operands[i], room);
    return status;
}
