/*
 * A branch's stick of edition 1.10: it is looked through, a notice is added, and an old one that is deleted makes room at once.
 * Build: cc -o stick stick.c $(pkg-config --cflags --libs sfs)
 */
#include <sfs.h>

#include <inttypes.h>
#include <stdio.h>
#include <stdlib.h>
#include <string.h>

#define STICK_BYTES 65536

static uint8_t stick[STICK_BYTES];

/* 1/65536 seconds since 1970: an hour of 16 November 2026, UTC. */
static int64_t at(int hour) {
    return (int64_t)(1794787200 + hour * 3600) * 65536;
}

static void expect(const char *what, uint32_t refusal) {
    if (refusal != SFS_OK) {
        printf("%s: refused %u\n", what, refusal);
        exit(1);
    }
}

static void put_up(int hour, const char *path, const char *text) {
    expect("put up", sfs_create_file(stick, STICK_BYTES, (const uint8_t *)path, strlen(path), (const uint8_t *)text, strlen(text),
                                     at(hour)));
}

static void take_down(int hour, const char *path) {
    expect("take down", sfs_delete(stick, STICK_BYTES, (const uint8_t *)path, strlen(path), at(hour)));
}

/* The last block of a region: in 1.0 an end is the block past it. */
static uint64_t last_block(uint32_t edition, uint64_t end) {
    return edition == SFS_VERSION_1_10 ? end : end - 1;
}

/* The volume's name, and what is on it. */
static void look(int hour) {
    static uint8_t path[256 * SFS_SLOT_BYTES]; /* other programs may write longer paths than SFS_PATH_MAX */
    uint8_t name[SFS_VOLUME_NAME_MAX];
    struct sfs_volume volume = sfs_open(stick, STICK_BYTES, name, sizeof name);
    uint64_t slot = 0;
    expect("open", volume.refusal);
    printf("%d:00 %.*s, edition %s\n", hour, (int)volume.name_length, (const char *)name,
           volume.edition == SFS_VERSION_1_10 ? "1.10" : "1.0");
    for (;;) {
        struct sfs_listed entry = sfs_list(stick, STICK_BYTES, slot, path, sizeof path);
        expect("list", entry.refusal);
        if (entry.kind == 0)
            return;
        printf("  %.*s", (int)entry.path_length, (const char *)path);
        if (entry.kind == SFS_DIRECTORY)
            printf(": directory\n");
        else if (entry.start == 0)
            printf(": empty\n");
        else
            printf(": %" PRIu64 " bytes, blocks %" PRIu64 " to %" PRIu64 "\n", entry.length, entry.start,
                   last_block(volume.edition, entry.end));
        slot = entry.slot + 1;
    }
}

int main(void) {
    static const uint8_t name[] = "BRANCH 2", notices[] = "notices";
    expect("format", sfs_format(stick, STICK_BYTES, SFS_VERSION_1_10, 512, 1, name, sizeof name - 1, at(8)));
    expect("directory", sfs_create_directory(stick, STICK_BYTES, notices, sizeof notices - 1, at(8)));
    put_up(8, "notices/monday", "Closed on Monday");
    put_up(8, "notices/none", "");
    look(9);
    put_up(10, "notices/tuesday", "Open on Tuesday");
    look(10);
    take_down(11, "notices/monday");
    put_up(11, "notices/friday", "Open on Friday");
    look(11);
    return 0;
}
