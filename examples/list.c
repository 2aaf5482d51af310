/*
 * Lists a volume, from a file that is named or else a small one made here. One call lists all entries, so that the volume is
 * judged once, however many there are.
 * Build: cc -o list list.c $(pkg-config --cflags --libs sfs)
 * Run:   list [VOLUME]
 */
#include <sfs.h>

#include <inttypes.h>
#include <stdio.h>
#include <stdlib.h>
#include <string.h>
#include <time.h>

#define MADE_BYTES 65536

static uint8_t image[SFS_IMAGE_MAX + 1]; /* a byte more, so that a file that is too long is read and refused */
static uint8_t records[SFS_RECORDS_ROOM];

/* 1/65536 seconds since 1970: an hour of 16 November 2026, UTC. */
static int64_t at(int hour) {
    return (int64_t)(1794787200 + hour * 3600) * 65536;
}

static void expect(const char *what, uint32_t refusal) {
    if (refusal != SFS_OK) {
        printf("%s: refused %u\n", what, refusal);
        exit(1);
    }
}

static void put_up(int hour, const char *path, const char *text) {
    expect("put up", sfs_create_file(image, MADE_BYTES, (const uint8_t *)path, strlen(path), (const uint8_t *)text, strlen(text),
                                     at(hour)));
}

static size_t make(void) {
    static const uint8_t name[] = "SQUARE", notices[] = "notices";
    expect("format", sfs_format(image, MADE_BYTES, SFS_VERSION_1_10, 512, 1, name, sizeof name - 1, at(8)));
    expect("directory", sfs_create_directory(image, MADE_BYTES, notices, sizeof notices - 1, at(8)));
    put_up(9, "notices/monday", "Closed on Monday");
    put_up(10, "notices/caf\xC3\xA9", "Open on Tuesday");
    put_up(11, "notices/none", "");
    return MADE_BYTES;
}

static size_t load(const char *path) {
    FILE *file = fopen(path, "rb");
    size_t length = file == NULL ? 0 : fread(image, 1, sizeof image, file);
    if (file == NULL || ferror(file)) {
        perror(path);
        exit(1);
    }
    fclose(file);
    return length;
}

/* Little-endian, 8 bytes. */
static uint64_t number(const uint8_t *record, enum sfs_record place) {
    uint64_t value = 0;
    for (const uint8_t *byte = record + place + 8; byte != record + place;)
        value = value << 8 | *--byte;
    return value;
}

/* Whole seconds since 1970, rounded down also before it. */
static time_t seconds(int64_t stamp) {
    return (time_t)(stamp / 65536 - (stamp % 65536 < 0));
}

/* Shows a record and gives its bytes. A path has no control characters, so that it may be shown as it is. */
static size_t show(const uint8_t *record) {
    size_t path_length = (size_t)number(record, SFS_RECORD_PATH_LENGTH);
    time_t when = seconds((int64_t)number(record, SFS_RECORD_STAMP));
    char date[64];
    strftime(date, sizeof date, "%Y-%m-%d %H:%M:%S", gmtime(&when));
    printf("%c %8" PRIu64 "  %s  ", number(record, SFS_RECORD_KIND) == SFS_DIRECTORY ? 'D' : 'F',
           number(record, SFS_RECORD_LENGTH), date);
    fwrite(record + SFS_RECORD_PATH, 1, path_length, stdout);
    putchar('\n');
    return SFS_RECORD_PATH + path_length;
}

int main(int argc, char **argv) {
    size_t length = argc > 1 ? load(argv[1]) : make();
    struct sfs_records found = sfs_list_all(image, length, 0, records, sizeof records);
    const uint8_t *record = records;
    expect("list", found.refusal);
    for (uint64_t i = 0; i < found.count; i++)
        record += show(record);
    return 0;
}
