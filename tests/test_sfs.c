/* The library from C: layouts, every call with good, bad, empty and NULL-empty slices, and document 01's run cases. */
#include "../include/sfs.h"

#include <stddef.h>
#include <stdio.h>
#include <stdlib.h>
#include <string.h>

/* A field's place, and its type: so its width and its sign. */
#define FIELD(name, field, place, type) \
    _Static_assert(offsetof(struct name, field) == (place), #name "." #field " is elsewhere"); \
    _Static_assert(_Generic(((struct name *)0)->field, type: 1, default: 0), #name "." #field " is no " #type)
#define SIZE(name, bytes) _Static_assert(sizeof(struct name) == (bytes), #name)
#define NUMBER(name, value) _Static_assert((name) == (value), #name)

FIELD(sfs_volume, refusal, 0, uint32_t);
FIELD(sfs_volume, version, 4, uint32_t);
FIELD(sfs_volume, edition, 8, uint32_t);
FIELD(sfs_volume, total, 16, uint64_t);
FIELD(sfs_volume, reserved, 24, uint64_t);
FIELD(sfs_volume, block_length, 32, uint64_t);
FIELD(sfs_volume, data_blocks, 40, uint64_t);
FIELD(sfs_volume, index_bytes, 48, uint64_t);
FIELD(sfs_volume, stamp, 56, int64_t);
FIELD(sfs_volume, volume_stamp, 64, int64_t);
FIELD(sfs_volume, name_length, 72, uint64_t);
SIZE(sfs_volume, 80);

FIELD(sfs_entry, refusal, 0, uint32_t);
FIELD(sfs_entry, kind, 4, uint32_t);
FIELD(sfs_entry, slot, 8, uint64_t);
FIELD(sfs_entry, start, 16, uint64_t);
FIELD(sfs_entry, end, 24, uint64_t);
FIELD(sfs_entry, length, 32, uint64_t);
FIELD(sfs_entry, stamp, 40, int64_t);
SIZE(sfs_entry, 48);

FIELD(sfs_listed, refusal, 0, uint32_t);
FIELD(sfs_listed, kind, 4, uint32_t);
FIELD(sfs_listed, slot, 8, uint64_t);
FIELD(sfs_listed, start, 16, uint64_t);
FIELD(sfs_listed, end, 24, uint64_t);
FIELD(sfs_listed, length, 32, uint64_t);
FIELD(sfs_listed, stamp, 40, int64_t);
FIELD(sfs_listed, path_length, 48, uint64_t);
SIZE(sfs_listed, 56);

FIELD(sfs_content, refusal, 0, uint32_t);
FIELD(sfs_content, length, 8, uint64_t);
SIZE(sfs_content, 16);

FIELD(sfs_records, refusal, 0, uint32_t);
FIELD(sfs_records, count, 8, uint64_t);
FIELD(sfs_records, length, 16, uint64_t);
FIELD(sfs_records, next, 24, uint64_t);
SIZE(sfs_records, 32);

NUMBER(SFS_RECORD_SLOT, 0);
NUMBER(SFS_RECORD_KIND, 8);
NUMBER(SFS_RECORD_START, 16);
NUMBER(SFS_RECORD_END, 24);
NUMBER(SFS_RECORD_LENGTH, 32);
NUMBER(SFS_RECORD_STAMP, 40);
NUMBER(SFS_RECORD_PATH_LENGTH, 48);
NUMBER(SFS_RECORD_PATH, 56);
NUMBER(SFS_RECORDS_ROOM, 491520);
NUMBER(SFS_API, 2);

NUMBER(SFS_OK, 0);
NUMBER(SFS_IMAGE_LENGTH, 1);
NUMBER(SFS_MAGIC, 2);
NUMBER(SFS_VERSION, 3);
NUMBER(SFS_CHECKSUM, 4);
NUMBER(SFS_GEOMETRY, 5);
NUMBER(SFS_INDEX, 6);
NUMBER(SFS_REGIONS, 7);
NUMBER(SFS_PATHS, 8);
NUMBER(SFS_READ_ONLY, 9);
NUMBER(SFS_NAME, 10);
NUMBER(SFS_NOT_FOUND, 11);
NUMBER(SFS_EXISTS, 12);
NUMBER(SFS_NO_DIRECTORY, 13);
NUMBER(SFS_NOT_EMPTY, 14);
NUMBER(SFS_NO_SLOTS, 15);
NUMBER(SFS_NO_BLOCKS, 16);
NUMBER(SFS_NOT_A_FILE, 17);
NUMBER(SFS_OUTPUT_TOO_SHORT, 18);
NUMBER(SFS_AMBIGUOUS, 19);
NUMBER(SFS_VERSION_1_0, 0x10);
NUMBER(SFS_VERSION_1_10, 0x1A);
NUMBER(SFS_DIRECTORY, 0x11);
NUMBER(SFS_FILE, 0x12);
NUMBER(SFS_IMAGE_MIN, 512);
NUMBER(SFS_IMAGE_MAX, 16777216);
NUMBER(SFS_FORMAT_MIN, 1024);
NUMBER(SFS_PATH_MAX, 285);
NUMBER(SFS_VOLUME_NAME_MAX, 51);
NUMBER(SFS_SLOT_BYTES, 64);
NUMBER(SFS_INDEX_MAX, 262144);
NUMBER(SFS_LISTING_IMAGE_MAX, 65536);
NUMBER(SFS_LISTING_ROOM, 131072);
NUMBER(SFS_REPORT_IMAGE_MAX, 65536);
NUMBER(SFS_REPORT_NUMBERS, 27);
NUMBER(SFS_REPORT_ROOM, 1024);
NUMBER(SFS_REPORT_FILE, 0);
NUMBER(SFS_REPORT_DELETED_FILE, 3);
NUMBER(SFS_REPORT_DIRECTORY, 6);
NUMBER(SFS_REPORT_DELETED_DIRECTORY, 9);
NUMBER(SFS_REPORT_UNUSABLE, 12);
NUMBER(SFS_REPORT_UNUSED, 15);
NUMBER(SFS_REPORT_UNREAD, 18);

static int passed, failed;

#define CHECK(test) \
    do { \
        if (test) { \
            passed++; \
        } else { \
            failed++; \
            printf("line %d: %s\n", __LINE__, #test); \
        } \
    } while (0)

/* A string literal as a slice. */
#define B(text) (const uint8_t *)(text), sizeof(text) - 1

/* Answers compared with the wanted ones, in every field; those of find and list have no padding. */
static int volume_is(struct sfs_volume a, struct sfs_volume wanted) {
    return a.refusal == wanted.refusal && a.version == wanted.version && a.edition == wanted.edition && a.total == wanted.total
        && a.reserved == wanted.reserved && a.block_length == wanted.block_length && a.data_blocks == wanted.data_blocks
        && a.index_bytes == wanted.index_bytes && a.stamp == wanted.stamp && a.volume_stamp == wanted.volume_stamp
        && a.name_length == wanted.name_length;
}

static int entry_is(struct sfs_entry a, struct sfs_entry wanted) {
    return memcmp(&a, &wanted, sizeof a) == 0;
}

static int listed_is(struct sfs_listed a, struct sfs_listed wanted) {
    return memcmp(&a, &wanted, sizeof a) == 0;
}

static int content_is(struct sfs_content a, struct sfs_content wanted) {
    return a.refusal == wanted.refusal && a.length == wanted.length;
}

/* The refusal, and zeros. */
static int zero_volume(struct sfs_volume a, uint32_t refusal) {
    return volume_is(a, (struct sfs_volume){.refusal = refusal});
}

static int zero_entry(struct sfs_entry a, uint32_t refusal) {
    return entry_is(a, (struct sfs_entry){.refusal = refusal});
}

static int zero_listed(struct sfs_listed a, uint32_t refusal) {
    return listed_is(a, (struct sfs_listed){.refusal = refusal});
}

static int zero_content(struct sfs_content a, uint32_t refusal) {
    return content_is(a, (struct sfs_content){.refusal = refusal});
}

static int records_are(struct sfs_records a, struct sfs_records wanted) {
    return a.refusal == wanted.refusal && a.count == wanted.count && a.length == wanted.length && a.next == wanted.next;
}

static int zero_records(struct sfs_records a, uint32_t refusal) {
    return records_are(a, (struct sfs_records){.refusal = refusal});
}

/* An image of zeros in memory of exactly its size, so that an access past its ends is noticed by the sanitizer. */
static uint8_t *new_image(size_t n) {
    uint8_t *image = calloc(n ? n : 1, 1);
    if (!image)
        abort();
    return image;
}

static void empty_slices(void) {
    uint8_t out[4] = {1, 2, 3, 4};
    CHECK(zero_volume(sfs_open(NULL, 0, NULL, 0), SFS_IMAGE_LENGTH));
    CHECK(zero_volume(sfs_open(NULL, 0, out, 4), SFS_IMAGE_LENGTH));
    CHECK(zero_entry(sfs_find(NULL, 0, NULL, 0), SFS_IMAGE_LENGTH));
    CHECK(zero_listed(sfs_list(NULL, 0, 0, out, 4), SFS_IMAGE_LENGTH));
    CHECK(zero_records(sfs_list_all(NULL, 0, 0, out, 4), SFS_IMAGE_LENGTH));
    CHECK(zero_records(sfs_list_all(NULL, 0, 0, NULL, 0), SFS_IMAGE_LENGTH));
    CHECK(zero_content(sfs_listing(NULL, 0, out, 4), SFS_OUTPUT_TOO_SHORT));
    CHECK(zero_content(sfs_read(NULL, 0, B("a"), out, 4), SFS_IMAGE_LENGTH));
    CHECK(sfs_format(NULL, 0, SFS_VERSION_1_0, 512, 2, NULL, 0, 0) == SFS_IMAGE_LENGTH);
    CHECK(sfs_create_file(NULL, 0, B("a"), NULL, 0, 0) == SFS_IMAGE_LENGTH);
    CHECK(sfs_create_directory(NULL, 0, B("a"), 0) == SFS_IMAGE_LENGTH);
    CHECK(sfs_delete(NULL, 0, B("a"), 0) == SFS_IMAGE_LENGTH);
    CHECK(sfs_delete(NULL, 0, NULL, 0, 0) == SFS_IMAGE_LENGTH);
    CHECK(sfs_delete_keep(NULL, 0, B("a"), 0) == SFS_IMAGE_LENGTH);
    CHECK(sfs_delete_keep(NULL, 0, NULL, 0, 0) == SFS_IMAGE_LENGTH);
    CHECK(sfs_restore(NULL, 0, B("a"), 0) == SFS_IMAGE_LENGTH);
    CHECK(sfs_restore(NULL, 0, NULL, 0, 0) == SFS_IMAGE_LENGTH);
    CHECK(sfs_reclaim(NULL, 0, 0) == SFS_IMAGE_LENGTH);
    CHECK(sfs_report_add(NULL, 0, NULL, 0) == SFS_OUTPUT_TOO_SHORT);
    CHECK(zero_content(sfs_report_text(NULL, 0, NULL, 0), SFS_OUTPUT_TOO_SHORT));
    CHECK(memcmp(out, "\1\2\3\4", 4) == 0);
}

/* Versions that no format takes; of the last three the low bytes are those of an edition. */
static const uint64_t no_versions[] = {0, 0x0F, 0x11, 0x19, 0x1B, 0xFF, 0x110, 0x10000001A, 0x8000000000000010};

static void formats_refused(void) {
    uint8_t *image = new_image(65536), *before = new_image(65536);
    memset(image, 0x5A, 65536);
    memset(before, 0x5A, 65536);
    CHECK(sfs_format(image, 511, SFS_VERSION_1_0, 512, 2, B("A"), 0) == SFS_IMAGE_LENGTH);
    CHECK(sfs_format(image, 65536, SFS_VERSION_1_0, 500, 2, B("A"), 0) == SFS_GEOMETRY);
    CHECK(sfs_format(image, 65536, SFS_VERSION_1_0, 0, 2, B("A"), 0) == SFS_GEOMETRY);
    CHECK(sfs_format(image, 65536, SFS_VERSION_1_0, 8192, 2, B("A"), 0) == SFS_GEOMETRY);
    CHECK(sfs_format(image, 65536, SFS_VERSION_1_0, 512, UINT64_MAX, B("A"), 0) == SFS_GEOMETRY);
    CHECK(sfs_format(image, 65536, SFS_VERSION_1_0, 256, 1, B("A"), 0) == SFS_GEOMETRY);
    CHECK(sfs_format(image, 65536, SFS_VERSION_1_0, 512, 2, B("a/b"), 0) == SFS_NAME);
    CHECK(sfs_format(image, 65536, SFS_VERSION_1_10, 512, 2, B("a/b"), 0) == SFS_NAME);
    for (size_t i = 0; i < sizeof no_versions / sizeof no_versions[0]; i++)
        CHECK(sfs_format(image, 65536, no_versions[i], 512, 2, B("a/b"), 0) == SFS_GEOMETRY);
    CHECK(sfs_format(image, 511, 0x11, 512, 2, B("A"), 0) == SFS_IMAGE_LENGTH);
    CHECK(memcmp(image, before, 65536) == 0);
    free(image);
    free(before);
}

static void formats(void) {
    uint8_t *image = new_image(65536), *before = new_image(65536);
    memset(image, 0x5A, 65536);
    memset(before, 0x5A, 65536);
    CHECK(sfs_format(image, 65536, SFS_VERSION_1_0, 512, 2, B("TERM7"), -5) == SFS_OK);
    CHECK(memcmp(image, before, 0x194) == 0);
    CHECK(memcmp(image + 0x1BE, before + 0x1BE, 65536 - 128 - 0x1BE) == 0);
    CHECK(volume_is(sfs_open(image, 65536, before, 5),
                    (struct sfs_volume){.version = 0x10, .edition = 0x10, .total = 128, .reserved = 2, .block_length = 512,
                                        .index_bytes = 128, .stamp = -5, .volume_stamp = -5, .name_length = 5}));
    CHECK(memcmp(before, "TERM7\x5A", 6) == 0);
    CHECK(zero_volume(sfs_open(image, 65536, before, 4), SFS_OUTPUT_TOO_SHORT));
    CHECK(zero_volume(sfs_open(image, 65535, before, 65536), SFS_GEOMETRY));
    image[0x1AC] ^= 1;
    CHECK(zero_volume(sfs_open(image, 65536, before, 65536), SFS_MAGIC));
    image[0x1AC] ^= 1;
    image[0x1BD] ^= 1;
    CHECK(zero_volume(sfs_open(image, 65536, before, 65536), SFS_CHECKSUM));
    free(image);
    free(before);
}

/*
 * A volume each of whose calls had a stamp of its own: the directory d is in slot 3, d/first (2,100 bytes) in slot 2 and
 * d/the-second (1,000 bytes) in slot 1. The wanted answers have no number twice, so fields exchanged would show.
 */
enum { FORMATTED = -1001, MADE = 2002, FIRST = -3003, SECOND = 4004, DELETED = -5005, RECLAIMED = -6006, LATER = 7007 };

static struct sfs_volume stamped_volume(uint32_t edition) {
    return (struct sfs_volume){.version = edition, .edition = edition, .total = 128, .reserved = 3, .block_length = 512,
                               .data_blocks = 7, .index_bytes = 320, .stamp = SECOND, .volume_stamp = FORMATTED, .name_length = 6};
}

static uint8_t *stamped(uint32_t edition) {
    uint8_t *image = new_image(65536), bytes[2100];
    memset(bytes, 0xA5, sizeof bytes);
    CHECK(sfs_format(image, 65536, edition, 512, 3, B("VOLUME"), FORMATTED) == SFS_OK);
    CHECK(sfs_create_directory(image, 65536, B("d"), MADE) == SFS_OK);
    CHECK(sfs_create_file(image, 65536, B("d/first"), bytes, 2100, FIRST) == SFS_OK);
    CHECK(sfs_create_file(image, 65536, B("d/the-second"), bytes, 1000, SECOND) == SFS_OK);
    return image;
}

static void every_field(uint32_t edition) {
    uint8_t *image = stamped(edition), *out = new_image(2101);
    uint64_t past = edition == SFS_VERSION_1_0; /* an end is the block past the region, or its last */
    CHECK(volume_is(sfs_open(image, 65536, out, 6), stamped_volume(edition)));
    CHECK(entry_is(sfs_find(image, 65536, B("d/first")),
                   (struct sfs_entry){.kind = SFS_FILE, .slot = 2, .start = 3, .end = 7 + past, .length = 2100, .stamp = FIRST}));
    CHECK(entry_is(sfs_find(image, 65536, B("d/the-second")),
                   (struct sfs_entry){.kind = SFS_FILE, .slot = 1, .start = 8, .end = 9 + past, .length = 1000, .stamp = SECOND}));
    CHECK(entry_is(sfs_find(image, 65536, B("d")), (struct sfs_entry){.kind = SFS_DIRECTORY, .slot = 3, .stamp = MADE}));
    CHECK(listed_is(sfs_list(image, 65536, 0, out, 12),
                    (struct sfs_listed){.kind = SFS_FILE, .slot = 1, .start = 8, .end = 9 + past, .length = 1000,
                                        .stamp = SECOND, .path_length = 12}));
    CHECK(listed_is(sfs_list(image, 65536, 2, out, 12),
                    (struct sfs_listed){.kind = SFS_FILE, .slot = 2, .start = 3, .end = 7 + past, .length = 2100,
                                        .stamp = FIRST, .path_length = 7}));
    CHECK(listed_is(sfs_list(image, 65536, 3, out, 12),
                    (struct sfs_listed){.kind = SFS_DIRECTORY, .slot = 3, .stamp = MADE, .path_length = 1}));
    CHECK(content_is(sfs_read(image, 65536, B("d/first"), out, 2101), (struct sfs_content){.length = 2100}));
    CHECK(out[0] == 0xA5 && out[2099] == 0xA5 && out[2100] == 0);
    CHECK(sfs_create_file(image, 65536, B("d/empty"), NULL, 0, LATER) == SFS_OK);
    CHECK(entry_is(sfs_find(image, 65536, B("d/empty")), (struct sfs_entry){.kind = SFS_FILE, .slot = 1, .stamp = LATER}));
    CHECK(content_is(sfs_read(image, 65536, B("d/empty"), NULL, 0), (struct sfs_content){.length = 0}));
    free(image);
    free(out);
}

/* A keeping delete changes the type and the stamp of its entry, nine bytes; a reclaim gives its own stamp where a size changes. */
static void stamps_of_writes(void) {
    uint8_t *image = stamped(SFS_VERSION_1_0), *before = stamped(SFS_VERSION_1_0), *slot = before + 65536 - 320 + 64, out[6];
    CHECK(sfs_delete_keep(image, 65536, B("d/the-second"), DELETED) == SFS_OK);
    memcpy(slot, "\x1A\0\x73\xEC\xFF\xFF\xFF\xFF\xFF\xFF", 10);
    CHECK(memcmp(image, before, 65536) == 0);
    CHECK(volume_is(sfs_open(image, 65536, out, 6), stamped_volume(SFS_VERSION_1_0)));
    struct sfs_volume trimmed = stamped_volume(SFS_VERSION_1_0);
    trimmed.data_blocks = 5;
    trimmed.stamp = RECLAIMED;
    CHECK(sfs_reclaim(image, 65536, RECLAIMED) == SFS_OK);
    CHECK(volume_is(sfs_open(image, 65536, out, 6), trimmed));
    CHECK(sfs_reclaim(image, 65536, LATER) == SFS_OK);
    CHECK(volume_is(sfs_open(image, 65536, out, 6), trimmed));
    CHECK(sfs_create_directory(image, 65536, B("e"), LATER) == SFS_OK);
    CHECK(volume_is(sfs_open(image, 65536, out, 6), trimmed));
    CHECK(entry_is(sfs_find(image, 65536, B("e")), (struct sfs_entry){.kind = SFS_DIRECTORY, .slot = 1, .stamp = LATER}));
    free(image);
    free(before);
}

/* Terminal 7's volume with the directory session and the file session/verified. */
static uint8_t *session(void) {
    uint8_t *image = new_image(65536);
    CHECK(sfs_format(image, 65536, SFS_VERSION_1_0, 512, 2, B("TERM7"), 0) == SFS_OK);
    CHECK(sfs_create_directory(image, 65536, B("session"), 0x3C0000) == SFS_OK);
    CHECK(sfs_create_file(image, 65536, B("session/verified"), B("yes"), -1) == SFS_OK);
    return image;
}

static void creates_refused(void) {
    uint8_t *image = session(), *before = session();
    CHECK(sfs_create_file(image, 65536, B("other/verified"), B("yes"), -1) == SFS_NO_DIRECTORY);
    CHECK(sfs_create_directory(image, 65536, B("session"), 0x3C0000) == SFS_EXISTS);
    CHECK(sfs_create_file(image, 65536, B("session//x"), B("yes"), -1) == SFS_NAME);
    CHECK(sfs_create_file(image, 65536, NULL, 0, NULL, 0, 0) == SFS_NAME);
    CHECK(memcmp(image, before, 65536) == 0);
    free(image);
    free(before);
}

static void reads(void) {
    uint8_t *image = session(), out[16];
    memset(out, 7, sizeof out);
    CHECK(zero_entry(sfs_find(image, 65536, B("session/absent")), SFS_NOT_FOUND));
    CHECK(zero_entry(sfs_find(image, 65536, B("..")), SFS_NAME));
    CHECK(content_is(sfs_read(image, 65536, B("session/verified"), out, 3), (struct sfs_content){.length = 3}));
    CHECK(memcmp(out, "yes\7", 4) == 0);
    CHECK(zero_content(sfs_read(image, 65536, B("session"), out, 16), SFS_NOT_A_FILE));
    CHECK(zero_content(sfs_read(image, 65536, B("session/verified"), out, 2), SFS_OUTPUT_TOO_SHORT));
    CHECK(sfs_list(image, 65536, 0, out, 16).path_length == 16);
    CHECK(memcmp(out, "session/verified", 16) == 0);
    CHECK(zero_listed(sfs_list(image, 65536, 3, NULL, 0), SFS_OK));
    CHECK(zero_listed(sfs_list(image, 65536, UINT64_MAX, out, 16), SFS_OK));
    CHECK(zero_listed(sfs_list(image, 65536, 1, out, 15), SFS_OUTPUT_TOO_SHORT));
    free(image);
}

/* The text of an image is the wanted one. */
static int text_is(const uint8_t *image, size_t n, const char *wanted) {
    uint8_t *out = new_image(SFS_LISTING_ROOM);
    size_t length = strlen(wanted);
    struct sfs_content text = sfs_listing(image, n, out, SFS_LISTING_ROOM);
    int same = content_is(text, (struct sfs_content){.length = length}) && memcmp(out, wanted, length) == 0 && out[length] == 0;
    free(out);
    return same;
}

/* What sfs_delete and sfs_delete_keep are. */
typedef uint32_t delete_call(uint8_t *image, size_t image_len, const uint8_t *path, size_t path_len, int64_t stamp);

/* By either call a path is gone; only the one that wipes trims the data area, which else waits for a reclaim. */
static void deletes(delete_call *call, uint64_t data_blocks) {
    uint8_t *image = session(), out[16];
    CHECK(call(image, 65536, B("session"), 1) == SFS_NOT_EMPTY);
    CHECK(call(image, 65536, B("session/verified"), 1) == SFS_OK);
    CHECK(call(image, 65536, B("session/verified"), 1) == SFS_NOT_FOUND);
    CHECK(zero_entry(sfs_find(image, 65536, B("session/verified")), SFS_NOT_FOUND));
    CHECK(sfs_open(image, 65536, out, 16).data_blocks == data_blocks);
    CHECK(sfs_reclaim(image, 65536, 2) == SFS_OK);
    CHECK(sfs_open(image, 65536, out, 16).data_blocks == 0);
    CHECK(call(image, 65536, B("session"), 1) == SFS_OK);
    CHECK(text_is(image, 65536, "TERM7\nlive 0 held 0\n"));
    free(image);
}

/* A keeping delete, then a restore: with the old stamp the image is what it was, with another one only the entry's stamp is new. */
static void restores(void) {
    uint8_t *image = stamped(SFS_VERSION_1_0), *before = stamped(SFS_VERSION_1_0), *slot = before + 65536 - 320 + 64, out[6];
    struct sfs_entry found = sfs_find(image, 65536, B("d/the-second"));
    CHECK(sfs_delete_keep(image, 65536, B("d/the-second"), DELETED) == SFS_OK);
    CHECK(sfs_restore(image, 65536, B("d/the-second"), found.stamp) == SFS_OK);
    CHECK(memcmp(image, before, 65536) == 0);
    CHECK(sfs_delete_keep(image, 65536, B("d/the-second"), DELETED) == SFS_OK);
    CHECK(sfs_restore(image, 65536, B("d/the-second"), -2) == SFS_OK);
    memcpy(slot, "\x12\0\xFE\xFF\xFF\xFF\xFF\xFF\xFF\xFF", 10);
    CHECK(memcmp(image, before, 65536) == 0);
    CHECK(volume_is(sfs_open(image, 65536, out, 6), stamped_volume(SFS_VERSION_1_0)));
    found.stamp = -2;
    CHECK(entry_is(sfs_find(image, 65536, B("d/the-second")), found));
    CHECK(sfs_reclaim(image, 65536, RECLAIMED) == SFS_OK); /* no block of it is given back */
    CHECK(entry_is(sfs_find(image, 65536, B("d/the-second")), found));
    free(image);
    free(before);
}

/* A directory comes back without what was below it, and what was below it only once the directory is there. */
static void restores_directories(void) {
    uint8_t *image = session(), out[4] = {0};
    CHECK(sfs_delete_keep(image, 65536, B("session/verified"), 1) == SFS_OK);
    CHECK(sfs_delete_keep(image, 65536, B("session"), 2) == SFS_OK);
    CHECK(sfs_restore(image, 65536, B("session/verified"), 3) == SFS_NO_DIRECTORY);
    CHECK(sfs_restore(image, 65536, B("session"), 3) == SFS_OK);
    CHECK(sfs_find(image, 65536, B("session")).kind == SFS_DIRECTORY);
    CHECK(zero_entry(sfs_find(image, 65536, B("session/verified")), SFS_NOT_FOUND));
    CHECK(sfs_restore(image, 65536, B("session/verified"), 3) == SFS_OK);
    CHECK(content_is(sfs_read(image, 65536, B("session/verified"), out, 4), (struct sfs_content){.length = 3}));
    CHECK(memcmp(out, "yes", 4) == 0);
    free(image);
}

/* The answer of a restore, which changes no byte. */
static uint32_t refused_restore(uint8_t *image, const uint8_t *path, size_t path_len) {
    uint8_t *before = new_image(65536);
    memcpy(before, image, 65536);
    uint32_t refusal = sfs_restore(image, 65536, path, path_len, 9);
    CHECK(memcmp(image, before, 65536) == 0);
    free(before);
    return refusal;
}

/* Each refusal, from 10 to 13 where a later one holds too. */
static void restores_refused(void) {
    uint8_t *image = session();
    CHECK(refused_restore(image, B("session/verified")) == SFS_NOT_FOUND); /* live, and none deleted */
    CHECK(refused_restore(image, B("none/verified")) == SFS_NOT_FOUND);    /* no directory either */
    CHECK(sfs_delete_keep(image, 65536, B("session/verified"), 1) == SFS_OK);
    CHECK(sfs_create_directory(image, 65536, B("session/verified"), 2) == SFS_OK);
    CHECK(sfs_delete_keep(image, 65536, B("session/verified"), 3) == SFS_OK);
    CHECK(refused_restore(image, B("session/verified")) == SFS_AMBIGUOUS); /* a file and a directory */
    CHECK(refused_restore(image, B("session//verified")) == SFS_NAME);
    CHECK(refused_restore(image, NULL, 0) == SFS_NAME);
    CHECK(sfs_create_file(image, 65536, B("session/verified"), NULL, 0, 4) == SFS_OK);
    CHECK(refused_restore(image, B("session/verified")) == SFS_EXISTS); /* and two deleted */
    CHECK(sfs_delete_keep(image, 65536, B("session/verified"), 5) == SFS_OK);
    CHECK(sfs_delete_keep(image, 65536, B("session"), 6) == SFS_OK);
    CHECK(refused_restore(image, B("session/verified")) == SFS_NO_DIRECTORY); /* and three deleted */
    image[0x1AF]++;
    image[0x1BD]--;
    CHECK(refused_restore(image, B("session//verified")) == SFS_READ_ONLY);
    image[0x1BD]++;
    CHECK(refused_restore(image, B("session//verified")) == SFS_CHECKSUM);
    image[0x1AF]--;
    CHECK(sfs_reclaim(image, 65536, 7) == SFS_OK);
    CHECK(refused_restore(image, B("session")) == SFS_NOT_FOUND);
    free(image);
}

/* What was wiped does not come back; of two deleted files of a path, one of them kept, the kept one does. */
static void restores_kept_alone(void) {
    uint8_t *image = session(), out[4] = {0};
    CHECK(sfs_delete_keep(image, 65536, B("session/verified"), 1) == SFS_OK);
    CHECK(sfs_create_file(image, 65536, B("session/verified"), B("no"), 2) == SFS_OK);
    CHECK(sfs_delete(image, 65536, B("session/verified"), 3) == SFS_OK);
    CHECK(sfs_restore(image, 65536, B("session/verified"), 4) == SFS_OK);
    CHECK(content_is(sfs_read(image, 65536, B("session/verified"), out, 4), (struct sfs_content){.length = 3}));
    CHECK(memcmp(out, "yes", 4) == 0);
    CHECK(sfs_delete(image, 65536, B("session/verified"), 5) == SFS_OK);
    CHECK(refused_restore(image, B("session/verified")) == SFS_NOT_FOUND);
    CHECK(sfs_delete(image, 65536, B("session"), 6) == SFS_OK);
    CHECK(refused_restore(image, B("session")) == SFS_NOT_FOUND);
    free(image);
}

/* A volume with a file of 64,000 bytes, big, and as many empty ones as have a place: the sixth, whose path is given, has none. */
static uint8_t *full(uint32_t edition, char path[7]) {
    uint8_t *image = new_image(65536), *bytes = new_image(64001);
    strcpy(path, "empty0");
    CHECK(sfs_format(image, 65536, edition, 512, 2, NULL, 0, 0) == SFS_OK);
    CHECK(sfs_create_file(image, 65536, B("big"), bytes, 64001, 0) == SFS_NO_BLOCKS);
    CHECK(sfs_create_file(image, 65536, B("big"), bytes, SIZE_MAX, 0) == SFS_NO_BLOCKS); /* rounded up without a sum */
    CHECK(sfs_create_file(image, 65536, B("big"), bytes, 64000, 0) == SFS_OK);
    for (; path[5] < '5'; path[5]++)
        CHECK(sfs_create_file(image, 65536, (const uint8_t *)path, 6, NULL, 0, 0) == SFS_OK);
    CHECK(sfs_create_file(image, 65536, (const uint8_t *)path, 6, NULL, 0, 0) == SFS_NO_SLOTS);
    free(bytes);
    return image;
}

/* After a keeping delete of the big file the sixth is 15 still, until a reclaim. */
static void full_volume_kept(void) {
    char path[7];
    uint8_t *image = full(SFS_VERSION_1_0, path);
    CHECK(sfs_delete_keep(image, 65536, B("big"), 0) == SFS_OK);
    CHECK(sfs_create_file(image, 65536, (const uint8_t *)path, 6, NULL, 0, 0) == SFS_NO_SLOTS);
    CHECK(sfs_reclaim(image, 65536, 0) == SFS_OK);
    CHECK(sfs_create_file(image, 65536, (const uint8_t *)path, 6, NULL, 0, 0) == SFS_OK);
    free(image);
}

/* In 1.10 it has the big file's slot and blocks at once, and only the data area's end waits for a reclaim. */
static void newer_full_volume_kept(void) {
    char path[7];
    uint8_t *image = full(SFS_VERSION_1_10, path), *bytes = new_image(63488);
    CHECK(sfs_delete_keep(image, 65536, B("big"), 0) == SFS_OK);
    CHECK(sfs_create_file(image, 65536, (const uint8_t *)path, 6, bytes, 63488, 0) == SFS_OK);
    path[5]++;
    CHECK(sfs_create_file(image, 65536, (const uint8_t *)path, 6, NULL, 0, 0) == SFS_NO_SLOTS);
    CHECK(sfs_reclaim(image, 65536, 0) == SFS_OK);
    CHECK(sfs_create_file(image, 65536, (const uint8_t *)path, 6, NULL, 0, 0) == SFS_OK);
    free(image);
    free(bytes);
}

/* After a delete that wipes, the sixth is accepted at once in both, and a seventh, for which the index grows. */
static void full_volume_wiped(uint32_t edition) {
    char path[7];
    uint8_t *image = full(edition, path);
    CHECK(sfs_delete(image, 65536, B("big"), 0) == SFS_OK);
    CHECK(sfs_create_file(image, 65536, (const uint8_t *)path, 6, NULL, 0, 0) == SFS_OK);
    path[5]++;
    CHECK(sfs_create_file(image, 65536, (const uint8_t *)path, 6, NULL, 0, 0) == SFS_OK);
    free(image);
}

static void listing(void) {
    uint8_t *image = new_image(65537), out[100] = {0};
    CHECK(text_is(NULL, 0, "refused 1\n"));
    CHECK(text_is(image, 65537, "refused 1\n"));
    CHECK(text_is(image, 65536, "refused 2\n"));
    CHECK(sfs_format(image, 65536, SFS_VERSION_1_0, 512, 2, B("TERM7"), 0) == SFS_OK);
    CHECK(text_is(image, 65536, "TERM7\nlive 0 held 0\n"));
    CHECK(sfs_create_directory(image, 65536, B("session"), 0x3C0000) == SFS_OK);
    CHECK(sfs_create_file(image, 65536, B("session/verified"), B("yes"), -1) == SFS_OK);
    CHECK(text_is(image, 65536,
                  "TERM7\n"
                  "F 3 1969-12-31T23:59:59Z session/verified\n"
                  "D 0 1970-01-01T00:01:00Z session\n"
                  "live 2 held 1\n"));
    CHECK(sfs_delete_keep(image, 65536, B("session/verified"), 0) == SFS_OK);
    CHECK(text_is(image, 65536, "TERM7\nD 0 1970-01-01T00:01:00Z session\nlive 1 held 1\n"));
    CHECK(sfs_restore(image, 65536, B("session/verified"), 0) == SFS_OK);
    CHECK(sfs_delete(image, 65536, B("session/verified"), 0) == SFS_OK);
    CHECK(text_is(image, 65536, "TERM7\nD 0 1970-01-01T00:01:00Z session\nlive 1 held 0\n"));
    CHECK(zero_content(sfs_listing(image, 65536, out, sizeof out), SFS_OUTPUT_TOO_SHORT) && out[0] == 0);
    image[0x1BD] ^= 1;
    CHECK(text_is(image, 65536, "refused 4\n"));
    CHECK(sfs_format(image, 65536, SFS_VERSION_1_0, 256, 2, NULL, 0, 0) == SFS_OK);
    CHECK(sfs_create_directory(image, 65536, B("a"), INT64_MIN) == SFS_OK);
    CHECK(sfs_create_directory(image, 65536, B("b"), INT64_MAX) == SFS_OK);
    CHECK(text_is(image, 65536,
                  "\n"
                  "D 0 4461763-06-20T05:22:07Z b\n"
                  "D 0 -4457824-07-13T18:37:52Z a\n"
                  "live 2 held 0\n"));
    free(image);
}

/* ---- names in UTF-8 */

/* One kind of ill-formed or refused name each. */
static const struct { const char *name; size_t length; } no_names[] = {
#define NO(text) {text, sizeof(text) - 1}
    NO("\x80"),             /* a byte that only goes on */
    NO("\xC3"),             /* cut off, of two bytes, of three and of four */
    NO("a\xE2\x89"),
    NO("\xF0\xA3\x8E"),
    NO("\xC3/a"),           /* another character inside one */
    NO("\xC0\xAF"),         /* a slash in two bytes, in three and in four */
    NO("\xE0\x80\xAF"),
    NO("\xF0\x80\x80\xAF"),
    NO("\xED\xA0\x80"),     /* U+D800 */
    NO("\xF4\x90\x80\x80"), /* U+110000 */
    NO("\xFF"),
    NO("a\xC2\x80"),        /* U+0080 */
    NO("\xC2\xA0" "b"),     /* U+00A0 */
    NO("\x7F"),
    NO("what?"),
#undef NO
};

/* A number of a record, little-endian. */
static uint64_t number_at(const uint8_t *record, size_t place) {
    uint64_t n = 0;
    for (size_t i = 8; i > 0; i--)
        n = n << 8 | record[place + i - 1];
    return n;
}

/* The record is what list answers at the slot, and then the path. */
static int record_is(const uint8_t *record, const uint8_t *image, size_t n, uint64_t slot) {
    uint8_t path[16320];
    struct sfs_listed a = sfs_list(image, n, slot, path, sizeof path);
    return a.kind != 0 && number_at(record, SFS_RECORD_SLOT) == a.slot && number_at(record, SFS_RECORD_KIND) == a.kind
        && number_at(record, SFS_RECORD_START) == a.start && number_at(record, SFS_RECORD_END) == a.end
        && number_at(record, SFS_RECORD_LENGTH) == a.length && (int64_t)number_at(record, SFS_RECORD_STAMP) == a.stamp
        && number_at(record, SFS_RECORD_PATH_LENGTH) == a.path_length
        && memcmp(record + SFS_RECORD_PATH, path, (size_t)a.path_length) == 0;
}

/* Two entries: "b/c" of 3 bytes at slot 1 (a record of 59 bytes) and "b" at slot 2 (57). */
static void list_all(uint32_t version) {
    uint8_t *image = new_image(65536), out[118];
    CHECK(sfs_format(image, 65536, version, 512, 2, B("TERM7"), 0) == SFS_OK);
    CHECK(zero_records(sfs_list_all(image, 65536, 0, NULL, 0), SFS_OK));
    CHECK(sfs_create_directory(image, 65536, B("b"), 0x3C0000) == SFS_OK);
    CHECK(sfs_create_file(image, 65536, B("b/c"), B("yes"), -1) == SFS_OK);
    memset(out, 0x5A, sizeof out);
    CHECK(zero_records(sfs_list_all(image, 65536, 0, NULL, 0), SFS_OUTPUT_TOO_SHORT));
    CHECK(zero_records(sfs_list_all(image, 65536, 0, out, 58), SFS_OUTPUT_TOO_SHORT) && out[0] == 0x5A);
    CHECK(records_are(sfs_list_all(image, 65536, 0, out, 59), (struct sfs_records){.count = 1, .length = 59, .next = 2}));
    CHECK(record_is(out, image, 65536, 0) && out[59] == 0x5A);
    CHECK(records_are(sfs_list_all(image, 65536, 0, out, 115), (struct sfs_records){.count = 1, .length = 59, .next = 2}));
    CHECK(out[59] == 0x5A);
    CHECK(records_are(sfs_list_all(image, 65536, 0, out, 117), (struct sfs_records){.count = 2, .length = 116}));
    CHECK(record_is(out, image, 65536, 0) && record_is(out + 59, image, 65536, 2) && out[116] == 0x5A);
    CHECK(records_are(sfs_list_all(image, 65536, 2, out, 57), (struct sfs_records){.count = 1, .length = 57}));
    CHECK(record_is(out, image, 65536, 2));
    CHECK(zero_records(sfs_list_all(image, 65536, 3, out, 116), SFS_OK));
    CHECK(zero_records(sfs_list_all(image, 65536, UINT64_MAX, out, 116), SFS_OK));
    image[65535 - 63] ^= 1;
    CHECK(zero_records(sfs_list_all(image, 65536, 0, out, 116), SFS_INDEX));
    free(image);
}

/* The longest records that an index has room for: directories whose names fill their slots. */
static void longest_records(uint32_t version) {
    size_t most = version == SFS_VERSION_1_0 ? 53 : 52;
    uint8_t *image = new_image(SFS_IMAGE_MAX), *out = new_image(SFS_RECORDS_ROOM);
    char path[64];
    CHECK(sfs_format(image, SFS_IMAGE_MAX, version, 4096, 1, NULL, 0, 0) == SFS_OK);
    uint32_t refused = 0;
    for (unsigned i = 0; i < 4094; i++) {
        snprintf(path, sizeof path, "%053u", i);
        refused |= sfs_create_directory(image, SFS_IMAGE_MAX, (const uint8_t *)path + 53 - most, most, 0);
    }
    CHECK(refused == SFS_OK);
    struct sfs_records all = sfs_list_all(image, SFS_IMAGE_MAX, 0, out, SFS_RECORDS_ROOM);
    CHECK(records_are(all, (struct sfs_records){.count = 4094, .length = 4094 * (SFS_RECORD_PATH + most)}));
    CHECK(record_is(out + 4093 * (SFS_RECORD_PATH + most), image, SFS_IMAGE_MAX, 4094));
    free(image);
    free(out);
}

static void names_refused(void) {
    uint8_t *image = new_image(65536);
    CHECK(sfs_format(image, 65536, SFS_VERSION_1_0, 512, 2, NULL, 0, 0) == SFS_OK);
    for (size_t i = 0; i < sizeof no_names / sizeof no_names[0]; i++) {
        const uint8_t *name = (const uint8_t *)no_names[i].name;
        size_t n = no_names[i].length;
        CHECK(zero_entry(sfs_find(image, 65536, name, n), SFS_NAME));
        CHECK(sfs_create_file(image, 65536, name, n, NULL, 0, 0) == SFS_NAME);
        CHECK(sfs_format(image, 65536, SFS_VERSION_1_0, 512, 2, name, n, 0) == SFS_NAME);
        memcpy(image + 65536 - 64 + 12, name, n); /* as the volume's stored name */
        CHECK(zero_volume(sfs_open(image, 65536, NULL, 0), SFS_INDEX));
        memset(image + 65536 - 64 + 12, 0, n);
    }
    free(image);
}

static void names_in_utf8(void) {
    uint8_t *image = new_image(65536), out[64] = {0};
    CHECK(sfs_format(image, 65536, SFS_VERSION_1_0, 512, 2, B("À la page"), 0) == SFS_OK);
    CHECK(sfs_open(image, 65536, out, 10).name_length == 10 && memcmp(out, "\xC3\x80 la page", 10) == 0);
    CHECK(sfs_create_directory(image, 65536, B("prêts"), 0) == SFS_OK);
    CHECK(sfs_create_file(image, 65536, B("prêts/¡日本語 𣎴"), B("yes"), 0) == SFS_OK);
    CHECK(sfs_find(image, 65536, B("prêts/¡日本語 𣎴")).length == 3);
    CHECK(zero_entry(sfs_find(image, 65536, B("PRÊTS")), SFS_NOT_FOUND));
    CHECK(zero_entry(sfs_find(image, 65536, B("pre\xCC\x82ts")), SFS_NOT_FOUND)); /* e and its accent apart: other bytes */
    CHECK(text_is(image, 65536,
                  "À la page\n"
                  "F 3 1970-01-01T00:00:00Z prêts/¡日本語 𣎴\n"
                  "D 0 1970-01-01T00:00:00Z prêts\n"
                  "live 2 held 1\n"));
    free(image);
}

/* The last character of 31 bytes of name has a byte in each slot; the zero behind the first of them cuts it off. */
static void names_over_slots(void) {
    uint8_t *image = new_image(65536);
    size_t second = 65536 - 128;
    CHECK(sfs_format(image, 65536, SFS_VERSION_1_0, 512, 2, NULL, 0, 0) == SFS_OK);
    CHECK(sfs_create_file(image, 65536, B("prêts de la branche au marché"), NULL, 0, 0) == SFS_OK);
    CHECK(image[second - 1] == 0xC3 && image[second] == 0xA9);
    CHECK(sfs_find(image, 65536, B("prêts de la branche au marché")).refusal == SFS_OK);
    image[second] = 0;
    CHECK(zero_volume(sfs_open(image, 65536, NULL, 0), SFS_INDEX));
    image[second] = 0xA9;
    CHECK(sfs_delete_keep(image, 65536, B("prêts de la branche au marché"), 0) == SFS_OK);
    CHECK(sfs_open(image, 65536, NULL, 0).refusal == SFS_OK);
    image[second] = 0; /* deleted names are judged too */
    CHECK(zero_volume(sfs_open(image, 65536, NULL, 0), SFS_INDEX));
    free(image);
}

/* ---- edition 1.10 */

/* Slots as a call writes them. */
static const uint8_t unused[64] = {0x10, 0xF0}, marker[64] = {0x02, 0xFE};

static uint8_t sum_of(const uint8_t *bytes, size_t n) {
    unsigned sum = 0;
    for (size_t i = 0; i < n; i++)
        sum += bytes[i];
    return (uint8_t)sum;
}

/* A byte more or less; sums are modulo 256. */
static void add(uint8_t *byte, int n) {
    *byte = (uint8_t)(*byte + n);
}

static void newer_formats(void) {
    uint8_t *image = new_image(65536), *before = new_image(65536);
    memset(image, 0x5A, 65536);
    memset(before, 0x5A, 65536);
    CHECK(sfs_format(image, 65536, SFS_VERSION_1_10, 512, 2, B("STICK"), -5) == SFS_OK);
    CHECK(memcmp(image, before, 0x18E) == 0);
    CHECK(memcmp(image + 0x1B8, before + 0x1B8, 65536 - 128 - 0x1B8) == 0);
    CHECK(memcmp(image + 0x1A6, "SFS\x1A", 4) == 0 && sum_of(image + 0x1A6, 18) == 0);
    CHECK(memcmp(image + 65536 - 128, marker, 64) == 0);
    CHECK(image[65536 - 64] == 0x01 && sum_of(image + 65536 - 64, 64) == 0);
    CHECK(volume_is(sfs_open(image, 65536, before, 5),
                    (struct sfs_volume){.version = 0x1A, .edition = 0x1A, .total = 128, .reserved = 2, .block_length = 512,
                                        .index_bytes = 128, .stamp = -5, .volume_stamp = -5, .name_length = 5}));
    CHECK(memcmp(before, "STICK\x5A", 6) == 0);
    CHECK(zero_volume(sfs_open(image, 65536, before, 4), SFS_OUTPUT_TOO_SHORT));
    image[0x1A6] ^= 1;
    CHECK(zero_volume(sfs_open(image, 65536, before, 65536), SFS_MAGIC));
    image[0x1A6] ^= 1;
    image[0x1B7] ^= 1;
    CHECK(zero_volume(sfs_open(image, 65536, before, 65536), SFS_CHECKSUM));
    image[0x1B7] ^= 1;
    add(image + 0x1A9, 1); /* a later version is not read here, and the checksum is right */
    add(image + 0x1B7, -1);
    CHECK(zero_volume(sfs_open(image, 65536, before, 65536), SFS_VERSION));
    add(image + 0x1A9, -11); /* nor is 1.0 */
    add(image + 0x1B7, 11);
    CHECK(image[0x1A9] == 0x10 && zero_volume(sfs_open(image, 65536, before, 65536), SFS_VERSION));
    free(image);
    free(before);
}

/* Magic in both places: that of 1.0 decides, and what then fails is not tried as the other. A format leaves one alone. */
static void both_magics(void) {
    uint8_t *image = stamped(SFS_VERSION_1_0);
    memcpy(image + 0x1A6, "SFS", 3); /* in the index size */
    CHECK(zero_volume(sfs_open(image, 65536, NULL, 0), SFS_GEOMETRY));
    CHECK(sfs_format(image, 65536, SFS_VERSION_1_10, 512, 2, NULL, 0, 0) == SFS_OK);
    CHECK(sfs_open(image, 65536, NULL, 0).edition == SFS_VERSION_1_10);
    memcpy(image + 0x1AC, "SFS", 3); /* in the number of blocks, and so is the version */
    CHECK(zero_volume(sfs_open(image, 65536, NULL, 0), SFS_VERSION));
    CHECK(sfs_format(image, 65536, SFS_VERSION_1_0, 512, 2, NULL, 0, 0) == SFS_OK);
    CHECK(sfs_open(image, 65536, NULL, 0).edition == SFS_VERSION_1_0);
    free(image);
}

/* 0x1A in the 1.0 place is a later version than 1.0: it is read as edition 1.0, and calls that write answer 9. */
static void later_version(void) {
    uint8_t *image = stamped(SFS_VERSION_1_0), *before = new_image(65536), out[6];
    struct sfs_volume later = stamped_volume(SFS_VERSION_1_0);
    later.version = 0x1A;
    add(image + 0x1AF, 10);
    add(image + 0x1BD, -10);
    memcpy(before, image, 65536);
    CHECK(volume_is(sfs_open(image, 65536, out, 6), later));
    CHECK(sfs_find(image, 65536, B("d/first")).end == 8);
    CHECK(sfs_create_file(image, 65536, B("new"), NULL, 0, LATER) == SFS_READ_ONLY);
    CHECK(sfs_create_directory(image, 65536, B("d"), LATER) == SFS_READ_ONLY);
    CHECK(sfs_delete(image, 65536, B("d/first"), LATER) == SFS_READ_ONLY);
    CHECK(sfs_delete(image, 65536, NULL, 0, LATER) == SFS_READ_ONLY);
    CHECK(sfs_delete_keep(image, 65536, B("d/first"), LATER) == SFS_READ_ONLY);
    CHECK(sfs_delete_keep(image, 65536, NULL, 0, LATER) == SFS_READ_ONLY);
    CHECK(sfs_restore(image, 65536, B("d/first"), LATER) == SFS_READ_ONLY);
    CHECK(sfs_reclaim(image, 65536, LATER) == SFS_READ_ONLY);
    CHECK(memcmp(image, before, 65536) == 0);
    free(image);
    free(before);
}

/* A keeping delete makes the run unused slots and changes nothing else: the same create then gives the image from before. */
static void newer_deletes(void) {
    uint8_t *image = stamped(SFS_VERSION_1_10), *before = stamped(SFS_VERSION_1_10), *slot = before + 65536 - 320 + 64, out[6];
    uint8_t *whole = stamped(SFS_VERSION_1_10), bytes[1000];
    memset(bytes, 0xA5, sizeof bytes);
    CHECK(sfs_delete_keep(image, 65536, B("d"), DELETED) == SFS_NOT_EMPTY);
    CHECK(sfs_delete_keep(image, 65536, B("d/the-second"), DELETED) == SFS_OK);
    memcpy(slot, unused, 64);
    CHECK(memcmp(image, before, 65536) == 0);
    CHECK(volume_is(sfs_open(image, 65536, out, 6), stamped_volume(SFS_VERSION_1_10)));
    CHECK(zero_entry(sfs_find(image, 65536, B("d/the-second")), SFS_NOT_FOUND));
    CHECK(sfs_delete_keep(image, 65536, B("d/the-second"), DELETED) == SFS_NOT_FOUND);
    CHECK(refused_restore(image, B("d/the-second")) == SFS_NOT_FOUND);
    CHECK(refused_restore(image, B("d/first")) == SFS_NOT_FOUND); /* live */
    CHECK(refused_restore(image, B("e/first")) == SFS_NOT_FOUND);
    CHECK(refused_restore(image, B("d//first")) == SFS_NAME);
    CHECK(sfs_create_file(image, 65536, B("d/the-second"), bytes, 1000, SECOND) == SFS_OK);
    CHECK(memcmp(image, whole, 65536) == 0);
    free(image);
    free(before);
    free(whole);
}

/* A reclaim trims the data area, with its stamp where the size changes; the index keeps its size. */
static void newer_reclaims(void) {
    uint8_t *image = stamped(SFS_VERSION_1_10), out[6];
    struct sfs_volume trimmed = stamped_volume(SFS_VERSION_1_10);
    CHECK(sfs_reclaim(image, 65536, LATER) == SFS_OK);
    CHECK(volume_is(sfs_open(image, 65536, out, 6), trimmed));
    CHECK(sfs_delete_keep(image, 65536, B("d/the-second"), DELETED) == SFS_OK);
    CHECK(sfs_reclaim(image, 65536, RECLAIMED) == SFS_OK);
    trimmed.data_blocks = 5;
    trimmed.stamp = RECLAIMED;
    CHECK(volume_is(sfs_open(image, 65536, out, 6), trimmed));
    CHECK(sfs_reclaim(image, 65536, LATER) == SFS_OK);
    CHECK(volume_is(sfs_open(image, 65536, out, 6), trimmed));
    CHECK(sfs_create_directory(image, 65536, B("d/e"), LATER) == SFS_OK);
    CHECK(volume_is(sfs_open(image, 65536, out, 6), trimmed));
    CHECK(entry_is(sfs_find(image, 65536, B("d/e")), (struct sfs_entry){.kind = SFS_DIRECTORY, .slot = 1, .stamp = LATER}));
    free(image);
}

static void newer_listing(void) {
    uint8_t *image = new_image(65536);
    CHECK(sfs_format(image, 65536, SFS_VERSION_1_10, 512, 2, B("TERM7"), 0) == SFS_OK);
    CHECK(sfs_create_directory(image, 65536, B("session"), 0x3C0000) == SFS_OK);
    CHECK(sfs_create_file(image, 65536, B("session/verified"), B("yes"), -1) == SFS_OK);
    CHECK(text_is(image, 65536,
                  "TERM7\n"
                  "F 3 1969-12-31T23:59:59Z session/verified\n"
                  "D 0 1970-01-01T00:01:00Z session\n"
                  "live 2 held 1\n"));
    CHECK(sfs_delete(image, 65536, B("session/verified"), 0) == SFS_OK);
    CHECK(text_is(image, 65536, "TERM7\nD 0 1970-01-01T00:01:00Z session\nlive 1 held 0\n"));
    free(image);
}

/* Stray slots count as unused ones. A refused call leaves them, an accepted one makes them so, whatever else it does. */
static void stray_slots(void) {
    uint8_t *image = stamped(SFS_VERSION_1_10), *before = new_image(65536), *slots = image + 65536 - 320, out[6];
    CHECK(sfs_delete_keep(image, 65536, B("d/the-second"), DELETED) == SFS_OK);
    memset(slots + 64, 'x', 64);
    memcpy(before, image, 65536);
    CHECK(volume_is(sfs_open(image, 65536, out, 6), stamped_volume(SFS_VERSION_1_10)));
    CHECK(sfs_find(image, 65536, B("d/first")).slot == 2);
    CHECK(sfs_create_directory(image, 65536, B("d"), LATER) == SFS_EXISTS);
    CHECK(sfs_delete(image, 65536, B("d"), LATER) == SFS_NOT_EMPTY);
    CHECK(sfs_delete_keep(image, 65536, B("d"), LATER) == SFS_NOT_EMPTY);
    CHECK(sfs_restore(image, 65536, B("d/the-second"), LATER) == SFS_NOT_FOUND);
    CHECK(memcmp(image, before, 65536) == 0);
    CHECK(sfs_delete_keep(image, 65536, B("d/first"), DELETED) == SFS_OK);
    memcpy(before + 65536 - 320 + 64, unused, 64);
    memcpy(before + 65536 - 320 + 128, unused, 64);
    CHECK(memcmp(image, before, 65536) == 0);
    memset(slots + 64, 'x', 128);
    CHECK(sfs_create_directory(image, 65536, B("d/e"), LATER) == SFS_OK); /* in the first of them; the other is rewritten */
    CHECK(sfs_find(image, 65536, B("d/e")).slot == 1 && memcmp(slots + 128, unused, 64) == 0);
    slots[128] = 'x';
    CHECK(sfs_reclaim(image, 65536, RECLAIMED) == SFS_OK);
    slots[128] = 'x';
    memcpy(before, image, 65536);
    memcpy(before + 65536 - 320 + 128, unused, 64);
    CHECK(sfs_reclaim(image, 65536, LATER) == SFS_OK); /* there is nothing to trim */
    CHECK(memcmp(image, before, 65536) == 0);
    slots[128] = 'x';
    memcpy(before + 65536 - 320 + 64, unused, 64);
    CHECK(sfs_delete(image, 65536, B("d/e"), LATER) == SFS_OK);
    CHECK(memcmp(image, before, 65536) == 0);
    free(image);
    image = stamped(SFS_VERSION_1_0);
    memset(image + 65536 - 320 + 64, 'x', 64);
    CHECK(zero_volume(sfs_open(image, 65536, out, 6), SFS_INDEX));
    free(image);
    free(before);
}

/*
 * A deleted run of two slots, as other programs leave one. With a right sum it is two unused slots; with a wrong one, or where
 * it would reach the identifier, only its first slot is, and what follows is judged by itself.
 */
static void deleted_runs(void) {
    enum { RIGHT, WRONG, TOO_LONG, CASES };
    for (int is = RIGHT; is < CASES; is++) {
        uint8_t *image = new_image(65536), *before = new_image(65536), *run = image + 65536 - 192;
        CHECK(sfs_format(image, 65536, SFS_VERSION_1_10, 512, 2, NULL, 0, 0) == SFS_OK);
        CHECK(sfs_create_file(image, 65536, B("a name that has 29 bytes here"), NULL, 0, LATER) == SFS_OK);
        CHECK(run[0] == SFS_FILE && run[2] == 1 && run[64] == 0 && sum_of(run, 128) == 0);
        run[0] = 0x1A;
        add(run + 1, is == WRONG ? -7 : -8);
        if (is == TOO_LONG) { /* over three slots the sum is right, the identifier's being so */
            run[2] = 2;
            add(run + 1, -1);
        }
        CHECK(zero_entry(sfs_find(image, 65536, B("a name that has 29 bytes here")), SFS_NOT_FOUND));
        run[64] = 0x02; /* inside a run it is of no kind; else it is a marker in a wrong place */
        add(run + 1, -2);
        CHECK(sfs_open(image, 65536, NULL, 0).refusal == (is == RIGHT ? SFS_OK : SFS_INDEX));
        run[64] = 0x03; /* an unused slot's: only the run's rewriting touches it */
        add(run + 1, -1);
        memcpy(before, image, 65536);
        memcpy(before + 65536 - 192, unused, 64);
        if (is == RIGHT)
            memcpy(before + 65536 - 128, unused, 64);
        CHECK(sfs_reclaim(image, 65536, LATER) == SFS_OK);
        CHECK(memcmp(image, before, 65536) == 0);
        free(image);
        free(before);
    }
}

/* The last byte of a slot is spare in the marker, past the zero of a short name, and in a sum. */
static void wrong_sums(void) {
    static const uint32_t editions[] = {SFS_VERSION_1_0, SFS_VERSION_1_10};
    for (int i = 0; i < 2; i++) {
        uint8_t *image = stamped(editions[i]), out[6];
        for (size_t slot = 0; slot < 5; slot++) { /* marker, two files, a directory, identifier */
            uint8_t *last = image + 65536 - 320 + 64 * slot + 63;
            *last ^= 1;
            CHECK(sfs_open(image, 65536, out, 6).refusal == (editions[i] == SFS_VERSION_1_0 ? SFS_OK : SFS_INDEX));
            *last ^= 1;
        }
        CHECK(volume_is(sfs_open(image, 65536, out, 6), stamped_volume(editions[i])));
        free(image);
    }
}

/* An unusable entry has a sum and an inclusive end too; an unused slot's sum is not judged. */
static void unusable_blocks(void) {
    static const uint8_t unusable[64] = {0x18, 0xD7, [10] = 8, [18] = 9};
    uint8_t *image = stamped(SFS_VERSION_1_10), *slot = image + 65536 - 320 + 64, out[6];
    CHECK(sfs_delete_keep(image, 65536, B("d/the-second"), DELETED) == SFS_OK);
    memcpy(slot, unusable, 64);
    CHECK(volume_is(sfs_open(image, 65536, out, 6), stamped_volume(SFS_VERSION_1_10)));
    slot[1]++;
    CHECK(zero_volume(sfs_open(image, 65536, out, 6), SFS_INDEX));
    slot[18]--;
    CHECK(sfs_open(image, 65536, out, 6).refusal == SFS_OK); /* block 8 alone */
    slot[1] = 0xD6;
    slot[18] = 10;
    CHECK(zero_volume(sfs_open(image, 65536, out, 6), SFS_REGIONS)); /* past the data area */
    memcpy(slot, unusable, 64);
    CHECK(sfs_create_file(image, 65536, B("d/new"), B("yes"), LATER) == SFS_OK);
    CHECK(entry_is(sfs_find(image, 65536, B("d/new")),
                   (struct sfs_entry){.kind = SFS_FILE, .slot = 1, .start = 10, .end = 10, .length = 3, .stamp = LATER}));
    slot[0] = 0x10;
    CHECK(sfs_open(image, 65536, out, 6).refusal == SFS_OK);
    free(image);
}

/* A new entry goes to the lowest unused slots before the entries of its directories; else the index grows. */
static void before_directories(void) {
    uint8_t *image = new_image(65536);
    CHECK(sfs_format(image, 65536, SFS_VERSION_1_10, 512, 2, NULL, 0, 0) == SFS_OK);
    CHECK(sfs_create_file(image, 65536, B("old"), NULL, 0, 0) == SFS_OK);
    CHECK(sfs_create_directory(image, 65536, B("d"), 0) == SFS_OK);
    CHECK(sfs_delete(image, 65536, B("old"), 0) == SFS_OK); /* its slot lies behind d */
    CHECK(sfs_open(image, 65536, NULL, 0).index_bytes == 256 && sfs_find(image, 65536, B("d")).slot == 1);
    CHECK(sfs_create_file(image, 65536, B("d/new"), NULL, 0, 0) == SFS_OK);
    CHECK(sfs_open(image, 65536, NULL, 0).index_bytes == 320 && sfs_find(image, 65536, B("d/new")).slot == 1);
    CHECK(sfs_create_file(image, 65536, B("new"), NULL, 0, 0) == SFS_OK);
    CHECK(sfs_open(image, 65536, NULL, 0).index_bytes == 320 && sfs_find(image, 65536, B("new")).slot == 3);
    free(image);
}

/* A slot holds a file's name of 28 bytes and a directory's of 52; a byte more takes another slot. 285 is taken, 286 is 10. */
static void newer_name_lengths(void) {
    static const struct { int file; size_t length, slots; } names[] = {
        {1, 28, 1}, {1, 29, 2}, {1, 92, 2}, {1, 93, 3}, {0, 52, 1}, {0, 53, 2}, {1, 285, 6}, {0, 285, 5},
    };
    uint8_t *image = new_image(65536), path[286];
    uint64_t index = 128;
    CHECK(sfs_format(image, 65536, SFS_VERSION_1_10, 512, 2, NULL, 0, 0) == SFS_OK);
    for (size_t i = 0; i < sizeof names / sizeof names[0]; i++) {
        memset(path, (int)('a' + i), sizeof path);
        size_t n = names[i].length;
        if (names[i].file)
            CHECK(sfs_create_file(image, 65536, path, n, NULL, 0, 0) == SFS_OK);
        else
            CHECK(sfs_create_directory(image, 65536, path, n, 0) == SFS_OK);
        index += 64 * names[i].slots;
        CHECK(sfs_open(image, 65536, NULL, 0).index_bytes == index);
        CHECK(sfs_find(image, 65536, path, n).refusal == SFS_OK && sfs_find(image, 65536, path, n - 1).refusal == SFS_NOT_FOUND);
    }
    CHECK(sfs_create_file(image, 65536, path, 286, NULL, 0, 0) == SFS_NAME);
    free(image);
}

/* ---- deletes that wipe */

static size_t super_block(uint32_t edition) {
    return edition == SFS_VERSION_1_0 ? 0x194 : 0x18E;
}

static uint8_t *slot_at(uint8_t *image, uint32_t edition, size_t slot) {
    return image + 65536 - number_at(image + super_block(edition), 16) + 64 * slot;
}

static void put_number(uint8_t *place, uint64_t n) {
    for (int i = 0; i < 8; i++)
        place[i] = (uint8_t)(n >> 8 * i);
}

/* What a wipe makes of slots. */
static void make_unused(uint8_t *image, uint32_t edition, size_t slot, size_t count) {
    static const uint8_t older[64] = {0x10};
    for (size_t i = 0; i < count; i++)
        memcpy(slot_at(image, edition, slot + i), edition == SFS_VERSION_1_0 ? older : unused, 64);
}

/* Another data area, and the stamp that belongs to it. */
static void resize(uint8_t *image, uint32_t edition, uint64_t blocks, int64_t stamp) {
    put_number(image + super_block(edition), (uint64_t)stamp);
    put_number(image + super_block(edition) + 8, blocks);
}

/* Another length of a file in one slot: what is behind it stays in the region, as other programs may leave it. */
static void shorten(uint8_t *image, uint32_t edition, size_t slot, uint64_t length) {
    uint8_t *entry = slot_at(image, edition, slot), before = sum_of(entry, 64);
    put_number(entry + (edition == SFS_VERSION_1_0 ? 26 : 27), length);
    if (edition == SFS_VERSION_1_10)
        add(entry + 1, before - sum_of(entry, 64));
}

static uint8_t *copy_of(const uint8_t *image) {
    return memcpy(new_image(65536), image, 65536);
}

/* The last region, blocks 8 and 9, is trimmed, and the volume has the call's stamp. */
static void wipes_last(uint32_t edition) {
    uint8_t *image = stamped(edition), *wanted = copy_of(image), out[6];
    struct sfs_volume trimmed = stamped_volume(edition);
    trimmed.data_blocks = 5;
    trimmed.stamp = DELETED;
    image[10 * 512 - 1] = 0x77; /* behind the file's bytes */
    memset(wanted + 8 * 512, 0, 2 * 512);
    make_unused(wanted, edition, 1, 1);
    resize(wanted, edition, 5, DELETED);
    CHECK(sfs_delete(image, 65536, B("d/the-second"), DELETED) == SFS_OK);
    CHECK(memcmp(image, wanted, 65536) == 0);
    CHECK(volume_is(sfs_open(image, 65536, out, 6), trimmed));
    CHECK(zero_entry(sfs_find(image, 65536, B("d/the-second")), SFS_NOT_FOUND));
    CHECK(sfs_delete(image, 65536, B("d/the-second"), LATER) == SFS_NOT_FOUND);
    CHECK(refused_restore(image, B("d/the-second")) == SFS_NOT_FOUND);
    free(image);
    free(wanted);
}

/* All of the region, blocks 3 to 7, however long the file is. With another region behind it the size and its stamp stay. */
static void wipes_first(uint32_t edition, uint64_t length) {
    uint8_t *image = stamped(edition), *wanted = copy_of(image);
    shorten(image, edition, 2, length);
    CHECK(sfs_find(image, 65536, B("d/first")).length == length);
    memset(wanted + 3 * 512, 0, 5 * 512);
    make_unused(wanted, edition, 2, 1);
    CHECK(sfs_delete(image, 65536, B("d/first"), DELETED) == SFS_OK);
    CHECK(memcmp(image, wanted, 65536) == 0);
    free(image);
    free(wanted);
}

/* A directory and an empty file have no block; but a data area that is too long, as other programs may leave it, is trimmed. */
static void wipes_without_blocks(uint32_t edition) {
    uint8_t *image = stamped(edition), *wanted;
    CHECK(sfs_create_directory(image, 65536, B("d/e"), LATER) == SFS_OK);
    wanted = copy_of(image);
    make_unused(wanted, edition, 1, 1);
    CHECK(sfs_delete(image, 65536, B("d/e"), DELETED) == SFS_OK);
    CHECK(memcmp(image, wanted, 65536) == 0);
    CHECK(sfs_create_file(image, 65536, B("d/none"), NULL, 0, LATER) == SFS_OK);
    resize(image, edition, 9, LATER);
    resize(wanted, edition, 7, DELETED);
    CHECK(sfs_delete(image, 65536, B("d/none"), DELETED) == SFS_OK);
    CHECK(memcmp(image, wanted, 65536) == 0);
    free(image);
    free(wanted);
}

/* Names of 100 bytes: a file's run of three slots, and a directory's of two, have nothing of them left. */
static void wipes_runs(uint32_t edition) {
    uint8_t *image = new_image(65536), *wanted, path[100];
    memset(path, 'd', sizeof path);
    CHECK(sfs_format(image, 65536, edition, 512, 2, NULL, 0, 0) == SFS_OK);
    CHECK(sfs_create_directory(image, 65536, path, 100, 0) == SFS_OK);
    path[0] = 'f';
    CHECK(sfs_create_file(image, 65536, path, 100, B("yes"), 0) == SFS_OK);
    wanted = copy_of(image);
    memset(wanted + 2 * 512, 0, 512);
    make_unused(wanted, edition, 1, 3);
    resize(wanted, edition, 0, DELETED);
    CHECK(sfs_delete(image, 65536, path, 100, DELETED) == SFS_OK);
    CHECK(memcmp(image, wanted, 65536) == 0);
    path[0] = 'd';
    make_unused(wanted, edition, 4, 2);
    CHECK(sfs_delete(image, 65536, path, 100, LATER) == SFS_OK);
    CHECK(memcmp(image, wanted, 65536) == 0);
    free(image);
    free(wanted);
}

/* Bytes around the region stay, in blocks of any length. */
static void wipes_blocks(uint32_t edition, size_t block_length) {
    uint8_t *image = new_image(65536), *wanted, bytes[2 * 4096 + 1];
    uint64_t reserved = (511 + block_length) / block_length;
    memset(image, 0x5A, 65536);
    memset(bytes, 0xA5, sizeof bytes);
    CHECK(sfs_format(image, 65536, edition, block_length, reserved, NULL, 0, 0) == SFS_OK);
    CHECK(sfs_create_file(image, 65536, B("f"), bytes, 2 * block_length + 1, MADE) == SFS_OK);
    wanted = copy_of(image);
    memset(wanted + reserved * block_length, 0, 3 * block_length);
    make_unused(wanted, edition, 1, 1);
    resize(wanted, edition, 0, DELETED);
    CHECK(sfs_delete(image, 65536, B("f"), DELETED) == SFS_OK);
    CHECK(memcmp(image, wanted, 65536) == 0);
    free(image);
    free(wanted);
}

/* In 1.0 a kept deleted file holds the data area's end, and its bytes; in 1.10 it holds nothing. */
static void wipes_beside_kept(uint32_t edition) {
    uint8_t *image = stamped(edition), *wanted;
    CHECK(sfs_delete_keep(image, 65536, B("d/the-second"), LATER) == SFS_OK);
    wanted = copy_of(image);
    memset(wanted + 3 * 512, 0, 5 * 512);
    make_unused(wanted, edition, 2, 1);
    if (edition == SFS_VERSION_1_10)
        resize(wanted, edition, 0, DELETED);
    CHECK(sfs_delete(image, 65536, B("d/first"), DELETED) == SFS_OK);
    CHECK(memcmp(image, wanted, 65536) == 0);
    CHECK(sfs_restore(image, 65536, B("d/the-second"), SECOND) == (edition == SFS_VERSION_1_0 ? SFS_OK : SFS_NOT_FOUND));
    free(image);
    free(wanted);
}

/* So does an unusable entry, in both: here in the place of d/the-second, for block 9 alone. */
static void wipes_beside_unusable(uint32_t edition) {
    static const uint8_t older[64] = {0x18, [10] = 9, [18] = 10}, newer[64] = {0x18, 0xD6, [10] = 9, [18] = 9};
    uint8_t *image = stamped(edition), *wanted;
    memcpy(slot_at(image, edition, 1), edition == SFS_VERSION_1_0 ? older : newer, 64);
    wanted = copy_of(image);
    memset(wanted + 3 * 512, 0, 5 * 512);
    make_unused(wanted, edition, 2, 1);
    CHECK(sfs_delete(image, 65536, B("d/first"), DELETED) == SFS_OK);
    CHECK(memcmp(image, wanted, 65536) == 0);
    free(image);
    free(wanted);
}

/* Both calls give the refusal, and change no byte. */
static void refused_deletes(uint8_t *image, size_t n, const uint8_t *path, size_t path_len, uint32_t refusal) {
    uint8_t *before = copy_of(image);
    CHECK(sfs_delete(image, n, path, path_len, LATER) == refusal);
    CHECK(sfs_delete_keep(image, n, path, path_len, LATER) == refusal);
    CHECK(memcmp(image, before, 65536) == 0);
    free(before);
}

/* 9 is in later_version. */
static void deletes_refused(uint32_t edition) {
    uint8_t *image = stamped(edition);
    size_t magic = super_block(edition) + 24;
    refused_deletes(image, 65536, B("d"), SFS_NOT_EMPTY);
    refused_deletes(image, 65536, B("d/third"), SFS_NOT_FOUND);
    refused_deletes(image, 65536, B("d/first/x"), SFS_NOT_FOUND);
    refused_deletes(image, 65536, B("d//first"), SFS_NAME);
    refused_deletes(image, 65536, NULL, 0, SFS_NAME);
    refused_deletes(image, 511, B("d/first"), SFS_IMAGE_LENGTH);
    refused_deletes(image, 65024, B("d/first"), SFS_GEOMETRY);
    image[magic + 17] ^= 1;
    refused_deletes(image, 65536, B("d/first"), SFS_CHECKSUM);
    image[magic + 3] = 0x0F;
    refused_deletes(image, 65536, B("d/first"), SFS_VERSION);
    image[magic] ^= 1;
    refused_deletes(image, 65536, B("d/first"), SFS_MAGIC);
    free(image);
}

/* The index of TERM7 at fault: in the identifier, in a region, in a path. */
static void deletes_refused_by_index(void) {
    static const struct { uint32_t refusal; size_t place; uint8_t byte; } faults[] = {
        {SFS_INDEX, 65536 - 64, 3}, {SFS_REGIONS, 65536 - 192 + 10, 1}, {SFS_PATHS, 65536 - 128 + 10, 'S'},
    };
    for (size_t i = 0; i < sizeof faults / sizeof faults[0]; i++) {
        uint8_t *image = session();
        image[faults[i].place] = faults[i].byte;
        refused_deletes(image, 65536, B("session/verified"), faults[i].refusal);
        free(image);
    }
}

static void wipes(uint32_t edition) {
    wipes_last(edition);
    wipes_first(edition, 2100);
    wipes_first(edition, 100);
    wipes_first(edition, 0);
    wipes_without_blocks(edition);
    wipes_runs(edition);
    for (size_t block_length = 256; block_length <= 4096; block_length *= 2)
        wipes_blocks(edition, block_length);
    wipes_beside_kept(edition);
    wipes_beside_unusable(edition);
    full_volume_wiped(edition);
    deletes_refused(edition);
}

/* A report of zeros in memory of exactly its size. */
static uint64_t *new_report(size_t numbers) {
    uint64_t *report = calloc(numbers, sizeof *report);
    if (!report)
        abort();
    return report;
}

static int report_is(const uint64_t *report, const uint64_t *wanted) {
    return memcmp(report, wanted, SFS_REPORT_NUMBERS * sizeof *report) == 0;
}

/* The image opens, and its report is the wanted one. */
static int sums_are(const uint8_t *image, size_t n, const uint64_t *wanted) {
    uint64_t *report = new_report(SFS_REPORT_NUMBERS);
    int same = sfs_report_add(image, n, report, SFS_REPORT_NUMBERS) == SFS_OK && report_is(report, wanted);
    free(report);
    return same;
}

/* Slots, blocks and bytes of live file, deleted file, directory, deleted directory, unusable and unused, in this order. */
static void report_sums(void) {
    uint8_t *image = session(), *slot = image + 65536 - 256 + 64;
    CHECK(sums_are(image, 65536, (uint64_t[27]){1, 1, 3, 0, 0, 0, 1, 0, 0}));
    slot[26] = 0; /* a region without a byte holds its block */
    CHECK(sums_are(image, 65536, (uint64_t[27]){1, 1, 0, 0, 0, 0, 1, 0, 0}));
    slot[26] = 3;
    CHECK(sfs_delete_keep(image, 65536, B("session/verified"), 1) == SFS_OK);
    CHECK(sums_are(image, 65536, (uint64_t[27]){0, 0, 0, 1, 1, 3, 1, 0, 0}));
    CHECK(sfs_delete_keep(image, 65536, B("session"), 1) == SFS_OK);
    CHECK(sums_are(image, 65536, (uint64_t[27]){0, 0, 0, 1, 1, 3, 0, 0, 0, 1, 0, 0}));
    CHECK(sfs_reclaim(image, 65536, 1) == SFS_OK);
    CHECK(sums_are(image, 65536, (uint64_t[27]){[15] = 2}));
    CHECK(sfs_format(image, 65536, SFS_VERSION_1_0, 512, 2, NULL, 0, 0) == SFS_OK);
    CHECK(sums_are(image, 65536, (uint64_t[27]){0}));
    free(image);
}

/* Files of 5 and 2 blocks, then an unusable entry in the place of the second; ends are meant as the edition means them. */
static void report_editions(void) {
    static const uint8_t older[64] = {0x18, [10] = 8, [18] = 10}, newer[64] = {0x18, 0xD7, [10] = 8, [18] = 9};
    uint8_t *image = stamped(SFS_VERSION_1_0), *slot = image + 65536 - 320 + 64;
    CHECK(sums_are(image, 65536, (uint64_t[27]){2, 7, 3100, 0, 0, 0, 1, 0, 0}));
    CHECK(sfs_delete_keep(image, 65536, B("d/the-second"), DELETED) == SFS_OK);
    CHECK(sums_are(image, 65536, (uint64_t[27]){1, 5, 2100, 1, 2, 1000, 1, 0, 0}));
    memcpy(slot, older, 64);
    CHECK(sums_are(image, 65536, (uint64_t[27]){1, 5, 2100, 0, 0, 0, 1, 0, 0, 0, 0, 0, 1, 2, 0}));
    add(image + 0x1AF, 10); /* a later version of 1.0, which may only be read */
    add(image + 0x1BD, -10);
    CHECK(sums_are(image, 65536, (uint64_t[27]){1, 5, 2100, 0, 0, 0, 1, 0, 0, 0, 0, 0, 1, 2, 0}));
    free(image);
    image = stamped(SFS_VERSION_1_10);
    slot = image + 65536 - 320 + 64;
    CHECK(sums_are(image, 65536, (uint64_t[27]){2, 7, 3100, 0, 0, 0, 1, 0, 0}));
    CHECK(sfs_delete_keep(image, 65536, B("d/the-second"), DELETED) == SFS_OK);
    CHECK(sums_are(image, 65536, (uint64_t[27]){1, 5, 2100, 0, 0, 0, 1, 0, 0, [15] = 1}));
    memset(slot, 'x', 64); /* a stray slot is left over */
    CHECK(sums_are(image, 65536, (uint64_t[27]){1, 5, 2100, 0, 0, 0, 1, 0, 0, [15] = 1}));
    memcpy(slot, newer, 64);
    CHECK(sums_are(image, 65536, (uint64_t[27]){1, 5, 2100, 0, 0, 0, 1, 0, 0, 0, 0, 0, 1, 2, 0}));
    free(image);
}

/* The slots that continue a name count: of 100 bytes a file's takes three, a directory's two. A deleted run of 1.10 is left over. */
static void report_long_names(uint32_t edition) {
    uint8_t *image = new_image(65536), path[100], *run = image + 65536 - 64 * 7 + 64;
    memset(path, 'd', sizeof path);
    CHECK(sfs_format(image, 65536, edition, 512, 2, NULL, 0, 0) == SFS_OK);
    CHECK(sfs_create_directory(image, 65536, path, 100, 0) == SFS_OK);
    path[0] = 'f';
    CHECK(sfs_create_file(image, 65536, path, 100, NULL, 0, 0) == SFS_OK);
    CHECK(sums_are(image, 65536, (uint64_t[27]){3, 0, 0, 0, 0, 0, 2, 0, 0}));
    CHECK(run[0] == SFS_FILE);
    run[0] = 0x1A;
    if (edition == SFS_VERSION_1_10)
        add(run + 1, -8);
    CHECK(sums_are(image, 65536, edition == SFS_VERSION_1_0 ? (uint64_t[27]){[3] = 3, [6] = 2} : (uint64_t[27]){[6] = 2, [15] = 3}));
    free(image);
}

/* Adds a copy of TERM7 with other bytes at a place: the refusal is answered and counted, and nothing else is. */
static void refused_report(uint64_t *report, uint32_t refusal, size_t place, uint8_t byte) {
    uint8_t *image = session();
    uint64_t wanted[SFS_REPORT_NUMBERS];
    memcpy(wanted, report, sizeof wanted);
    wanted[SFS_REPORT_UNREAD + refusal]++;
    image[place] = byte;
    CHECK(sfs_report_add(image, 65536, report, SFS_REPORT_NUMBERS) == refusal);
    CHECK(report_is(report, wanted));
    free(image);
}

static void reports_refused(void) {
    uint64_t *report = new_report(SFS_REPORT_NUMBERS);
    refused_report(report, SFS_MAGIC, 0x1AC, 0);
    refused_report(report, SFS_VERSION, 0x1AF, 0x0F);
    refused_report(report, SFS_CHECKSUM, 0x1BD, 0);
    refused_report(report, SFS_INDEX, 65536 - 64, 3);
    refused_report(report, SFS_REGIONS, 65536 - 192 + 10, 1);
    refused_report(report, SFS_PATHS, 65536 - 128 + 10, 'S');
    refused_report(report, SFS_PATHS, 65536 - 128 + 10, 'S');
    uint8_t *image = session();
    CHECK(sfs_report_add(image, 65024, report, SFS_REPORT_NUMBERS) == SFS_GEOMETRY);
    CHECK(sfs_report_add(image, 511, report, SFS_REPORT_NUMBERS) == SFS_IMAGE_LENGTH);
    CHECK(sfs_report_add(NULL, 0, report, SFS_REPORT_NUMBERS) == SFS_IMAGE_LENGTH);
    CHECK(report_is(report, (uint64_t[27]){[19] = 2, 1, 1, 1, 1, 1, 1, 2}));
    free(image);
    free(report);
}

/* A volume of more than 65,536 bytes opens and is no image of a report; one of 65,536 is. */
static void report_long_image(void) {
    uint8_t *image = new_image(66048);
    uint64_t *report = new_report(SFS_REPORT_NUMBERS);
    CHECK(sfs_format(image, 66048, SFS_VERSION_1_0, 512, 1, NULL, 0, 0) == SFS_OK);
    CHECK(sfs_open(image, 66048, NULL, 0).refusal == SFS_OK);
    CHECK(sfs_report_add(image, 66048, report, SFS_REPORT_NUMBERS) == SFS_IMAGE_LENGTH);
    CHECK(sfs_report_add(image, 65537, report, SFS_REPORT_NUMBERS) == SFS_IMAGE_LENGTH);
    CHECK(sfs_report_add(image, 65536, report, SFS_REPORT_NUMBERS) == SFS_GEOMETRY);
    CHECK(report_is(report, (uint64_t[27]){[19] = 2, [23] = 1}));
    free(image);
    free(report);
}

/* 18 comes before the image is judged, and nothing is counted. Numbers behind the 27 stay as they are. */
static void report_lengths(void) {
    uint8_t *image = session();
    uint64_t *report = new_report(30);
    CHECK(sfs_report_add(image, 65536, report, 26) == SFS_OUTPUT_TOO_SHORT);
    CHECK(sfs_report_add(NULL, 0, report, 26) == SFS_OUTPUT_TOO_SHORT);
    CHECK(sfs_report_add(image, 65536, NULL, 0) == SFS_OUTPUT_TOO_SHORT);
    CHECK(report_is(report, (uint64_t[27]){0}));
    report[27] = 1;
    report[28] = UINT64_MAX;
    report[29] = 3;
    CHECK(sfs_report_add(image, 65536, report, 30) == SFS_OK);
    CHECK(sfs_report_add(NULL, 0, report, 30) == SFS_IMAGE_LENGTH);
    CHECK(report_is(report, (uint64_t[27]){1, 1, 3, 0, 0, 0, 1, 0, 0, [19] = 1}));
    CHECK(report[27] == 1 && report[28] == UINT64_MAX && report[29] == 3);
    free(image);
    free(report);
}

/* Images add up, whatever the numbers were; a sum past 64 bits wraps, and the others go on. */
static void report_adds(void) {
    uint8_t *image = session();
    uint64_t *report = new_report(SFS_REPORT_NUMBERS);
    for (size_t i = 0; i < SFS_REPORT_NUMBERS; i++)
        report[i] = 100 * i;
    report[0] = UINT64_MAX;
    report[2] = UINT64_MAX - 1;
    CHECK(sfs_report_add(image, 65536, report, SFS_REPORT_NUMBERS) == SFS_OK);
    CHECK(report[0] == 0 && report[1] == 101 && report[2] == 1 && report[3] == 300 && report[6] == 601);
    CHECK(sfs_report_add(image, 65536, report, SFS_REPORT_NUMBERS) == SFS_OK);
    CHECK(report[0] == 1 && report[1] == 102 && report[2] == 4 && report[6] == 602);
    for (size_t i = 7; i < SFS_REPORT_NUMBERS; i++)
        CHECK(report[i] == 100 * i);
    free(image);
    free(report);
}

/* The text of a report is the wanted one, and no byte behind it has changed. */
static int report_text_is(const uint64_t *report, const char *wanted) {
    uint8_t *out = new_image(SFS_REPORT_ROOM);
    size_t length = strlen(wanted);
    memset(out, 7, SFS_REPORT_ROOM);
    struct sfs_content text = sfs_report_text(report, SFS_REPORT_NUMBERS, out, SFS_REPORT_ROOM);
    int same = content_is(text, (struct sfs_content){.length = length}) && memcmp(out, wanted, length) == 0 && out[length] == 7
        && memcmp(out + length, out + length + 1, SFS_REPORT_ROOM - length - 1) == 0;
    free(out);
    return same;
}

#define MOST "18446744073709551615"
#define MOST_OF(kind) kind " " MOST " " MOST " " MOST "\n"

static void report_texts(void) {
    uint64_t *report = new_report(SFS_REPORT_NUMBERS);
    CHECK(report_text_is(report, "file 0 0 0\ndeleted-file 0 0 0\ndir 0 0 0\ndeleted-dir 0 0 0\nunusable 0 0 0\nunused 0 0 0\n"
                                 "refused\nunread 0\n"));
    for (size_t i = 0; i < SFS_REPORT_NUMBERS; i++)
        report[i] = i + 1;
    report[20] = 0; /* a refusal that did not occur is not told */
    report[26] = 0;
    CHECK(report_text_is(report, "file 1 2 3\ndeleted-file 4 5 6\ndir 7 8 9\ndeleted-dir 10 11 12\nunusable 13 14 15\n"
                                 "unused 16 17 18\nrefused 1:20 3:22 4:23 5:24 6:25 7:26\nunread 19\n"));
    memset(report, 0xFF, SFS_REPORT_NUMBERS * sizeof *report);
    CHECK(report_text_is(report, MOST_OF("file") MOST_OF("deleted-file") MOST_OF("dir") MOST_OF("deleted-dir") MOST_OF("unusable")
                                 MOST_OF("unused") "refused 1:" MOST " 2:" MOST " 3:" MOST " 4:" MOST " 5:" MOST " 6:" MOST
                                 " 7:" MOST " 8:" MOST "\nunread " MOST "\n"));
    free(report);
}

/* 18 with too few numbers or too little output, and nothing is written; of more numbers the 27 are told. */
static void report_text_lengths(void) {
    uint8_t *out = new_image(SFS_REPORT_ROOM + 1), *before = new_image(SFS_REPORT_ROOM + 1);
    uint64_t *report = new_report(30);
    memset(report, 1, 30 * sizeof *report);
    CHECK(zero_content(sfs_report_text(report, 27, out, 1023), SFS_OUTPUT_TOO_SHORT));
    CHECK(zero_content(sfs_report_text(report, 27, NULL, 0), SFS_OUTPUT_TOO_SHORT));
    CHECK(zero_content(sfs_report_text(report, 26, out, 1025), SFS_OUTPUT_TOO_SHORT));
    CHECK(zero_content(sfs_report_text(NULL, 0, out, 1025), SFS_OUTPUT_TOO_SHORT));
    CHECK(memcmp(out, before, SFS_REPORT_ROOM + 1) == 0);
    struct sfs_content text = sfs_report_text(report, 27, before, 1024);
    CHECK(content_is(sfs_report_text(report, 30, out, 1025), text) && text.refusal == SFS_OK);
    CHECK(memcmp(out, before, SFS_REPORT_ROOM + 1) == 0);
    free(out);
    free(before);
    free(report);
}

/* Document 01's volume of either edition and an empty file, as the report program is asked. */
static void report_worked(uint32_t edition) {
    uint8_t *image = new_image(8192);
    uint64_t *report = new_report(SFS_REPORT_NUMBERS);
    CHECK(sfs_format(image, 8192, edition, 512, 2, B("TERM7"), 0) == SFS_OK);
    CHECK(sfs_create_directory(image, 8192, B("session"), 0x3C0000) == SFS_OK);
    CHECK(sfs_create_file(image, 8192, B("session/verified"), B("yes"), -1) == SFS_OK);
    CHECK(sfs_report_add(image, 8192, report, SFS_REPORT_NUMBERS) == SFS_OK);
    CHECK(sfs_report_add(NULL, 0, report, SFS_REPORT_NUMBERS) == SFS_IMAGE_LENGTH);
    CHECK(report_text_is(report, "file 1 1 3\ndeleted-file 0 0 0\ndir 1 0 0\ndeleted-dir 0 0 0\nunusable 0 0 0\nunused 0 0 0\n"
                                 "refused 1:1\nunread 0\n"));
    free(image);
    free(report);
}

static void reports(void) {
    report_sums();
    report_editions();
    report_long_names(SFS_VERSION_1_0);
    report_long_names(SFS_VERSION_1_10);
    reports_refused();
    report_long_image();
    report_lengths();
    report_adds();
    report_texts();
    report_text_lengths();
    report_worked(SFS_VERSION_1_0);
    report_worked(SFS_VERSION_1_10);
}

static void newer(void) {
    newer_formats();
    both_magics();
    later_version();
    newer_deletes();
    newer_reclaims();
    newer_full_volume_kept();
    newer_listing();
    stray_slots();
    deleted_runs();
    wrong_sums();
    unusable_blocks();
    before_directories();
    newer_name_lengths();
}

int main(void) {
    empty_slices();
    formats_refused();
    formats();
    every_field(SFS_VERSION_1_0);
    every_field(SFS_VERSION_1_10);
    stamps_of_writes();
    creates_refused();
    reads();
    deletes(sfs_delete, 0);
    deletes(sfs_delete_keep, 1);
    restores();
    restores_directories();
    restores_refused();
    restores_kept_alone();
    full_volume_kept();
    listing();
    CHECK(sfs_api() == SFS_API);
    list_all(SFS_VERSION_1_0);
    list_all(SFS_VERSION_1_10);
    longest_records(SFS_VERSION_1_0);
    longest_records(SFS_VERSION_1_10);
    names_refused();
    names_in_utf8();
    names_over_slots();
    newer();
    wipes(SFS_VERSION_1_0);
    wipes(SFS_VERSION_1_10);
    deletes_refused_by_index();
    reports();
    printf("%d passed, %d failed\n", passed, failed);
    return failed != 0;
}
