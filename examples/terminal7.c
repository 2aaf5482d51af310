/*
 * Terminal 7's volume: formatted, a session made, and its file deleted. Before and after that it is listed, and the bytes in
 * the file's block are counted: after the delete none is left.
 * Build: cc -o terminal7 terminal7.c $(pkg-config --cflags --libs sfs)
 */
#include <sfs.h>

#include <stdio.h>
#include <stdlib.h>

#define BYTES 65536
#define BLOCK 512

static uint8_t volume[BYTES];
static uint8_t text[SFS_LISTING_ROOM];

static void done(const char *what, uint32_t refusal) {
    printf("%s: %u\n", what, refusal);
    if (refusal != SFS_OK)
        exit(1);
}

static void listed(void) {
    struct sfs_content listing = sfs_listing(volume, BYTES, text, sizeof text);
    if (listing.refusal != SFS_OK)
        done("list", listing.refusal);
    fwrite(text, 1, (size_t)listing.length, stdout);
}

static void counted(uint64_t block) {
    unsigned count = 0;
    for (uint64_t i = block * BLOCK; i < (block + 1) * BLOCK; i++)
        count += volume[i] != 0;
    printf("bytes in block %u that are not zero: %u\n\n", (unsigned)block, count);
}

int main(void) {
    static const uint8_t name[] = "TERM7", session[] = "session", verified[] = "session/verified", yes[] = "yes";
    done("format", sfs_format(volume, BYTES, SFS_VERSION_1_0, BLOCK, 2, name, sizeof name - 1, 0));
    done("create session", sfs_create_directory(volume, BYTES, session, sizeof session - 1, 0x3C0000));
    done("create session/verified", sfs_create_file(volume, BYTES, verified, sizeof verified - 1, yes, 3, -1));
    uint64_t block = sfs_find(volume, BYTES, verified, sizeof verified - 1).start;
    listed();
    counted(block);
    done("delete session/verified", sfs_delete(volume, BYTES, verified, sizeof verified - 1, 0));
    listed();
    counted(block);
    return 0;
}
