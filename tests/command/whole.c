/*
 * Deletes in whole images, to hold the command against.
 *
 *     whole make 1.0|1.10 > IMAGE              a volume of 1 MiB, every byte outside of its own other than zero
 *     whole delete|keep PATH.. < IMAGE > IMAGE the image with all of its bytes in memory, after the library's call for each path
 *
 * The exit status is 0, or 1 where a call is refused or the system refuses.
 */
#include <sfs.h>

#include <stdbool.h>
#include <stdio.h>
#include <string.h>

#define BYTES 1048576u
#define BLOCK 512u
#define STAMP 5

static uint8_t image[BYTES], bytes[BYTES];

/*
 * The command has the first 4,096 and the last 262,144 bytes of an image in memory: files lie in the first part, across its end, in
 * the middle, and across the start of the last part. Regions of some are longer than the files, as other programs may make them.
 */
static const struct {
    const char *path;
    size_t length; /* that it is created with, which gives its region */
    size_t left;   /* that it has then */
} files[] = {
    {"head", 700, 700},    {"across", 9000, 9000}, {"middle", 100001, 100001}, {"slack", 50000, 3},
    {"hollow", 20000, 0}, {"inside", 300, 300},   {"tail", 700000, 700000},   {"last", 5000, 5000},
};

static void put_number(uint8_t *place, uint64_t number) {
    for (int i = 0; i < 8; i++)
        place[i] = (uint8_t)(number >> 8 * i);
}

static uint8_t sum_of(const uint8_t *slot) {
    unsigned sum = 0;
    for (size_t i = 0; i < SFS_SLOT_BYTES; i++)
        sum += slot[i];
    return (uint8_t)sum;
}

/* A length that is stored; in edition 1.10 byte 1 makes the sum of the slot right again. */
static void shorten(const char *path, size_t length, bool newer) {
    struct sfs_entry found = sfs_find(image, BYTES, (const uint8_t *)path, strlen(path));
    struct sfs_volume volume = sfs_open(image, BYTES, NULL, 0);
    uint8_t *slot = image + BYTES - volume.index_bytes + found.slot * SFS_SLOT_BYTES;
    uint8_t before = sum_of(slot);
    put_number(slot + (newer ? 27 : 26), length);
    if (newer)
        slot[1] = (uint8_t)(slot[1] + before - sum_of(slot));
}

static uint32_t make(bool newer) {
    uint32_t refusal;
    for (size_t i = 0; i < BYTES; i++)
        image[i] = bytes[i] = (uint8_t)(1 + (i * 31 + i / 251) % 255);
    refusal = sfs_format(image, BYTES, newer ? SFS_VERSION_1_10 : SFS_VERSION_1_0, BLOCK, 1, NULL, 0, 0);
    if (refusal == SFS_OK)
        refusal = sfs_create_directory(image, BYTES, (const uint8_t *)"d", 1, 0);
    if (refusal == SFS_OK)
        refusal = sfs_create_file(image, BYTES, (const uint8_t *)"d/none", 6, NULL, 0, 0);
    for (size_t i = 0; refusal == SFS_OK && i < sizeof files / sizeof *files; i++) {
        refusal = sfs_create_file(image, BYTES, (const uint8_t *)files[i].path, strlen(files[i].path), bytes, files[i].length, 0);
        if (refusal == SFS_OK && files[i].left != files[i].length)
            shorten(files[i].path, files[i].left, newer);
    }
    return refusal;
}

static uint32_t delete_all(char **paths, bool keep) {
    uint32_t refusal = fread(image, 1, BYTES, stdin) == BYTES ? SFS_OK : SFS_IMAGE_LENGTH;
    for (; refusal == SFS_OK && *paths != NULL; paths++)
        refusal = (keep ? sfs_delete_keep : sfs_delete)(image, BYTES, (const uint8_t *)*paths, strlen(*paths), STAMP);
    return refusal;
}

int main(int argc, char **argv) {
    if (argc < 3)
        return 1;
    uint32_t refusal = strcmp(argv[1], "make") == 0 ? make(strcmp(argv[2], "1.10") == 0)
                                                    : delete_all(argv + 2, strcmp(argv[1], "keep") == 0);
    return refusal == SFS_OK && fwrite(image, 1, BYTES, stdout) == BYTES ? 0 : 1;
}
