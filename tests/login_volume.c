/*
 * A volume for the login service that holds other files too. "login_volume 1.0" or "login_volume 1.10" writes it to standard output,
 * with an open session. "login_volume check" reads one from standard input; exit status: 0 if the other files are whole and nobody is
 * signed in, 3 if they are and somebody is, 1 if not.
 */
#include <sfs.h>

#include <stdbool.h>
#include <stdio.h>
#include <string.h>

#define VOLUME_BYTES 65536
#define LONG_BYTES 20000
#define SIGNED_IN 3

static uint8_t volume[VOLUME_BYTES + 1]; /* a byte more, so that a longer one is seen */

/* Directories have no bytes here. */
static const struct {
    const char *path;
    bool directory;
    size_t length;
} kept[] = {
    {"session", true, 0},      {"notices", true, 0},           {"notices/monday", false, 100},
    {"notices/none", false, 0}, {"notices/long", false, LONG_BYTES},
};
#define KEPT (sizeof kept / sizeof kept[0])

static const uint8_t *path_of(size_t i) {
    return (const uint8_t *)kept[i].path;
}

/* The bytes of each file differ from those of every other. */
static const uint8_t *bytes_of(size_t i) {
    static uint8_t bytes[LONG_BYTES];
    for (size_t k = 0; k < sizeof bytes; k++)
        bytes[k] = (uint8_t)(k * 31 + k / 256 + i);
    return bytes;
}

static uint32_t create(size_t i) {
    size_t length = strlen(kept[i].path);
    return kept[i].directory ? sfs_create_directory(volume, VOLUME_BYTES, path_of(i), length, 1)
                             : sfs_create_file(volume, VOLUME_BYTES, path_of(i), length, bytes_of(i), kept[i].length, 1);
}

static bool write_volume(uint64_t version) {
    bool good = sfs_format(volume, VOLUME_BYTES, version, 512, 2, (const uint8_t *)"TERM7", 5, 1) == SFS_OK;
    for (size_t i = 0; i < KEPT; i++)
        good = good && create(i) == SFS_OK;
    good = good && sfs_create_file(volume, VOLUME_BYTES, (const uint8_t *)"session/verified", 16, (const uint8_t *)"A. Reader", 9, 2) == SFS_OK;
    return good && fwrite(volume, 1, VOLUME_BYTES, stdout) == VOLUME_BYTES;
}

static bool whole(size_t i) {
    static uint8_t out[LONG_BYTES];
    struct sfs_entry found = sfs_find(volume, VOLUME_BYTES, path_of(i), strlen(kept[i].path));
    if (kept[i].directory)
        return found.refusal == SFS_OK && found.kind == SFS_DIRECTORY && found.stamp == 1;
    return found.refusal == SFS_OK && found.kind == SFS_FILE && found.stamp == 1 && found.length == kept[i].length &&
           sfs_read(volume, VOLUME_BYTES, path_of(i), strlen(kept[i].path), out, sizeof out).refusal == SFS_OK &&
           memcmp(out, bytes_of(i), kept[i].length) == 0;
}

static int check_volume(void) {
    static uint8_t records[SFS_RECORDS_ROOM];
    bool good = fread(volume, 1, sizeof volume, stdin) == VOLUME_BYTES;
    bool open = sfs_find(volume, VOLUME_BYTES, (const uint8_t *)"session/verified", 16).refusal == SFS_OK;
    for (size_t i = 0; i < KEPT; i++)
        good = good && whole(i);
    good = good && sfs_list_all(volume, VOLUME_BYTES, 0, records, sizeof records).count == KEPT + open;
    return !good ? 1 : open ? SIGNED_IN : 0;
}

int main(int argc, char **argv) {
    if (argc == 2 && strcmp(argv[1], "check") == 0)
        return check_volume();
    return argc == 2 && write_volume(strcmp(argv[1], "1.10") == 0 ? SFS_VERSION_1_10 : SFS_VERSION_1_0) ? 0 : 1;
}
