/*
 * How a drawer's volumes are filled, all together: two volumes are made here, one of each edition, and a report adds them up. A
 * file that is no volume, here an empty one, is counted as refused, and one that could not be read would be counted by hand.
 * Build: cc -o report report.c $(pkg-config --cflags --libs sfs)
 */
#include <sfs.h>

#include <stdio.h>
#include <stdlib.h>
#include <string.h>

#define VOLUME_BYTES 8192

static uint8_t older[VOLUME_BYTES], newer[VOLUME_BYTES];

static void expect(const char *what, uint32_t refusal) {
    if (refusal != SFS_OK) {
        printf("%s: refused %u\n", what, refusal);
        exit(1);
    }
}

static void put_up(uint8_t *volume, const char *path, const char *text) {
    expect("put up", sfs_create_file(volume, VOLUME_BYTES, (const uint8_t *)path, strlen(path), (const uint8_t *)text,
                                     strlen(text), 0));
}

/* A directory and two notices, of which the first is deleted and kept: in edition 1.0 it has its block, in 1.10 it is an unused slot. */
static void fill(uint8_t *volume, uint64_t version) {
    static const uint8_t name[] = "SQUARE", notices[] = "notices", monday[] = "notices/monday";
    expect("format", sfs_format(volume, VOLUME_BYTES, version, 512, 1, name, sizeof name - 1, 0));
    expect("directory", sfs_create_directory(volume, VOLUME_BYTES, notices, sizeof notices - 1, 0));
    put_up(volume, "notices/monday", "Closed on Monday");
    put_up(volume, "notices/tuesday", "Open on Tuesday");
    expect("take down", sfs_delete_keep(volume, VOLUME_BYTES, monday, sizeof monday - 1, 0));
}

/* An image that is refused is a part of the report; only a report that is too short is not counted. */
static void add(uint64_t *report, const char *what, const uint8_t *image, size_t length) {
    uint32_t refusal = sfs_report_add(image, length, report, SFS_REPORT_NUMBERS);
    if (refusal == SFS_OUTPUT_TOO_SHORT)
        expect(what, refusal);
    else if (refusal != SFS_OK)
        printf("%s: counted as refused %u\n", what, refusal);
}

int main(void) {
    uint64_t report[SFS_REPORT_NUMBERS] = {0};
    uint8_t text[SFS_REPORT_ROOM];
    fill(older, SFS_VERSION_1_0);
    fill(newer, SFS_VERSION_1_10);
    add(report, "older", older, sizeof older);
    add(report, "newer", newer, sizeof newer);
    add(report, "an empty file", NULL, 0);
    struct sfs_content found = sfs_report_text(report, SFS_REPORT_NUMBERS, text, sizeof text);
    expect("text", found.refusal);
    fwrite(text, 1, (size_t)found.length, stdout);
    return 0;
}
