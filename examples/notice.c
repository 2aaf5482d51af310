/*
 * The same afternoon: a notice is deleted at ten and wanted at three. It was deleted by the call that keeps, so that until the
 * volume is reclaimed it can come back, with its bytes; which of two deleted notices is meant, the store does not guess.
 * Build: cc -o notice notice.c $(pkg-config --cflags --libs sfs)
 */
#include <sfs.h>

#include <stdio.h>
#include <stdlib.h>

#define VOLUME_BYTES 65536

static const uint8_t path[] = "notices/monday";
static uint8_t volume[VOLUME_BYTES];

/* 1/65536 seconds since 1970: an hour of 16 November 2026, UTC. */
static int64_t at(int hour) {
    return (int64_t)(1794787200 + hour * 3600) * 65536;
}

static void expect(const char *what, uint32_t refusal) {
    if (refusal != SFS_OK) {
        printf("%s: refused %u\n", what, refusal);
        exit(1);
    }
}

static void put_up(int hour, const uint8_t *text, size_t length) {
    expect("put up", sfs_create_file(volume, VOLUME_BYTES, path, sizeof path - 1, text, length, at(hour)));
}

static void take_down(int hour) {
    expect("take down", sfs_delete_keep(volume, VOLUME_BYTES, path, sizeof path - 1, at(hour)));
}

static void bring_back(int hour) {
    switch (sfs_restore(volume, VOLUME_BYTES, path, sizeof path - 1, at(hour))) {
    case SFS_OK:
        printf("%d:00 it is back\n", hour);
        break;
    case SFS_NOT_FOUND:
        printf("%d:00 there is none to bring back\n", hour);
        break;
    case SFS_AMBIGUOUS:
        printf("%d:00 there are two, so neither\n", hour);
        break;
    default:
        printf("%d:00 refused\n", hour);
    }
}

static void look(int hour) {
    uint8_t text[64];
    struct sfs_content found = sfs_read(volume, VOLUME_BYTES, path, sizeof path - 1, text, sizeof text);
    if (found.refusal == SFS_OK)
        printf("%d:00 the notice says: %.*s\n", hour, (int)found.length, (const char *)text);
    else
        printf("%d:00 no notice\n", hour);
}

int main(void) {
    static const uint8_t name[] = "SQUARE", notices[] = "notices", closed[] = "Closed on Monday", open[] = "Open on Monday";
    expect("format", sfs_format(volume, VOLUME_BYTES, SFS_VERSION_1_0, 512, 2, name, sizeof name - 1, at(8)));
    expect("directory", sfs_create_directory(volume, VOLUME_BYTES, notices, sizeof notices - 1, at(8)));
    put_up(9, closed, sizeof closed - 1);
    look(9);
    take_down(10);
    look(10);
    bring_back(15);
    look(15);
    take_down(16);
    put_up(16, open, sizeof open - 1);
    look(16);
    take_down(17);
    bring_back(17);
    expect("reclaim", sfs_reclaim(volume, VOLUME_BYTES, at(18)));
    bring_back(18);
    return 0;
}
