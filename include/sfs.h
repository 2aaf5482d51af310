/*
 * sfs.h: a proved store for Simple File System volumes of editions 1.0 and 1.10.
 *
 * A volume is an image of 512 to 16,777,216 bytes that the caller lends for each call. Nothing is kept between calls, so
 * calls on different images may run at the same time; calls on one image may not, if one of them writes.
 *
 * Every call on an image takes any image and any arguments and, format, listing and report apart, judges the image before
 * anything else. Its refusal number is 0 on success. After a refusal every other number of the answer is 0, and no byte of the
 * image or of a lent output has changed; only sfs_report_add counts the refusal of an image in the report.
 *
 * The magic decides a volume's edition, and all calls serve both. In 1.10 no delete leaves anything that could be restored;
 * and every accepted call that writes, format apart, first rewrites deleted runs and stray slots, which other programs leave,
 * as unused slots.
 *
 * Slices: a pointer and a length. The pointer of an empty slice may be NULL, any other may not. The slices of one call
 * lie apart in memory; no call can check that.
 *
 * Names and paths are UTF-8 without a terminating zero; their lengths are bytes, and they are compared byte for byte. Not
 * allowed in any name: ill-formed UTF-8 (RFC 3629), codes below U+0020 or from U+007F to U+00A0, and " * : < > ? and the
 * backslash. A path has parts joined by single slashes, none of them empty, "." or ".."; a volume name has no slash.
 *
 * Stamps count 1/65536 seconds from 1970-01-01 UTC.
 */
#ifndef SFS_H
#define SFS_H

#include <stddef.h>
#include <stdint.h>

#ifdef __cplusplus
extern "C" {
#endif

/* The number of this interface, raised whenever a struct, an argument or what a call does changes; sfs_api() is the library's. */
#define SFS_API 2u

/* Sizes. */
#define SFS_IMAGE_MIN 512u
#define SFS_IMAGE_MAX 16777216u
#define SFS_FORMAT_MIN 1024u      /* the shortest image that can be formatted */
#define SFS_PATH_MAX 285u         /* bytes of a path to create */
#define SFS_VOLUME_NAME_MAX 51u   /* bytes */
#define SFS_SLOT_BYTES 64u
#define SFS_INDEX_MAX 262144u
#define SFS_LISTING_IMAGE_MAX 65536u
#define SFS_LISTING_ROOM 131072u  /* enough for the listing of any image */
#define SFS_RECORDS_ROOM 491520u  /* enough for the records of any image */
#define SFS_REPORT_IMAGE_MAX 65536u
#define SFS_REPORT_NUMBERS 27u    /* of a report */
#define SFS_REPORT_ROOM 1024u     /* enough for the text of any report */
#define SFS_STACK_MAX 81920u      /* bytes of stack that a call takes at most; none takes any heap */

/* Editions, by the version that a format gives. */
#define SFS_VERSION_1_0 0x10u
#define SFS_VERSION_1_10 0x1Au

/* Kinds of an entry. */
#define SFS_DIRECTORY 0x11u
#define SFS_FILE 0x12u

/* Refusal numbers. The lowest that applies is given; of sfs_report_add 18 comes first. */
enum sfs_refusal {
    SFS_OK = 0,
    SFS_IMAGE_LENGTH = 1,      /* the image is too short or too long */
    SFS_MAGIC = 2,             /* no super-block */
    SFS_VERSION = 3,           /* a version that is not read: below 1.0, or other than 1.10 in a 1.10 volume */
    SFS_CHECKSUM = 4,          /* the super-block's checksum is wrong */
    SFS_GEOMETRY = 5,          /* sizes that do not fit the image; of a format: its sizes or its version */
    SFS_INDEX = 6,             /* markers, runs or names of the index; in 1.0 stray slots, in 1.10 sums */
    SFS_REGIONS = 7,           /* a region out of bounds, or a block in two of them */
    SFS_PATHS = 8,             /* a path repeated, or without its directory */
    SFS_READ_ONLY = 9,         /* a version above 1.0 in a 1.0 volume, which may only be read */
    SFS_NAME = 10,             /* a path or name argument that is not allowed */
    SFS_NOT_FOUND = 11,        /* no live entry has the path; of a restore: no deleted one, as always in 1.10 */
    SFS_EXISTS = 12,           /* a live entry has the path already */
    SFS_NO_DIRECTORY = 13,     /* the path's directory is not there */
    SFS_NOT_EMPTY = 14,        /* the directory has live entries below it */
    SFS_NO_SLOTS = 15,         /* no slots that the entry may take, and the index cannot grow */
    SFS_NO_BLOCKS = 16,        /* no free run of blocks is long enough */
    SFS_NOT_A_FILE = 17,       /* a file was wanted */
    SFS_OUTPUT_TOO_SHORT = 18, /* the lent output, or report, is too short */
    SFS_AMBIGUOUS = 19         /* two or more deleted entries have the path */
};

/*
 * The numbers of a volume. A 1.0 volume may store a version above 0x10, even 0x1A: how an end is meant goes by edition, not
 * version.
 */
struct sfs_volume {
    uint32_t refusal;
    uint32_t version;       /* as it is stored */
    uint32_t edition;       /* SFS_VERSION_1_0 or SFS_VERSION_1_10 */
    uint64_t total;         /* blocks */
    uint64_t reserved;      /* blocks, the super-block's own among them */
    uint64_t block_length;  /* bytes */
    uint64_t data_blocks;   /* data area, in blocks */
    uint64_t index_bytes;   /* index area, in bytes */
    int64_t stamp;          /* when a size last changed */
    int64_t volume_stamp;   /* when the volume was formatted */
    uint64_t name_length;   /* bytes of the volume name */
};

/* The numbers of an entry. A directory has 0 for start, end and length, and so has a file without blocks. */
struct sfs_entry {
    uint32_t refusal;
    uint32_t kind;    /* SFS_DIRECTORY or SFS_FILE */
    uint64_t slot;    /* its first slot in the index */
    uint64_t start;   /* first block of its region */
    uint64_t end;     /* the block past it in edition 1.0, its last block in 1.10 */
    uint64_t length;  /* bytes */
    int64_t stamp;
};

/* The same with the path's byte count; kind 0, if refusal is 0: no entry is left. */
struct sfs_listed {
    uint32_t refusal;
    uint32_t kind;
    uint64_t slot;
    uint64_t start;
    uint64_t end;
    uint64_t length;
    int64_t stamp;
    uint64_t path_length;
};

/* What was put into the output. */
struct sfs_content {
    uint32_t refusal;
    uint64_t length;  /* bytes */
};

/* Records that were put into the output. */
struct sfs_records {
    uint32_t refusal;
    uint64_t count;
    uint64_t length;  /* bytes of all of them */
    uint64_t next;    /* the slot to go on from; 0, if refusal is 0: no entry is left */
};

/* Where the numbers of a record are, 8 bytes each, little-endian, and where its path starts. */
enum sfs_record {
    SFS_RECORD_SLOT = 0,
    SFS_RECORD_KIND = 8,
    SFS_RECORD_START = 16,
    SFS_RECORD_END = 24,
    SFS_RECORD_LENGTH = 32,
    SFS_RECORD_STAMP = 40,
    SFS_RECORD_PATH_LENGTH = 48,
    SFS_RECORD_PATH = 56
};

/*
 * Where the numbers of a report are. Each of the first six has three sums: at it the slots, then the blocks, then the bytes.
 * At SFS_REPORT_UNREAD is a count of files that could not be read, which the caller keeps; behind it, at SFS_REPORT_UNREAD
 * + n, how many images were refused with n, 1 to 8.
 */
enum sfs_report {
    SFS_REPORT_FILE = 0,
    SFS_REPORT_DELETED_FILE = 3,
    SFS_REPORT_DIRECTORY = 6,
    SFS_REPORT_DELETED_DIRECTORY = 9,
    SFS_REPORT_UNUSABLE = 12,
    SFS_REPORT_UNUSED = 15,
    SFS_REPORT_UNREAD = 18
};

/* The number of the library's interface: SFS_API of the header that belongs to it. */
uint32_t sfs_api(void);

/*
 * Makes the image an empty volume. version is SFS_VERSION_1_0 or SFS_VERSION_1_10, and any other is 5; bytes_per_block is
 * 256, 512, 1024, 2048 or 4096; reserved blocks cover at least the first 512 bytes. Writes the super-block's fields and the
 * last 128 bytes, and nothing else. Refusals: 1, 5, 10.
 */
uint32_t sfs_format(uint8_t *image, size_t image_len, uint64_t version, uint64_t bytes_per_block, uint64_t reserved,
                    const uint8_t *name, size_t name_len, int64_t stamp);

/* Gives the volume's numbers and puts its name at the start of out. Refusals: 1 to 8, 18. */
struct sfs_volume sfs_open(const uint8_t *image, size_t image_len, uint8_t *out, size_t out_len);

/* Gives the numbers of the live entry of a path. Refusals: 1 to 8, 10, 11. */
struct sfs_entry sfs_find(const uint8_t *image, size_t image_len, const uint8_t *path, size_t path_len);

/*
 * Gives the live entry with the lowest first slot not below slot, and puts its path at the start of out. To list all,
 * start with 0 and go on with the found slot + 1 until kind is 0. Refusals: 1 to 8, 18.
 */
struct sfs_listed sfs_list(const uint8_t *image, size_t image_len, uint64_t slot, uint8_t *out, size_t out_len);

/*
 * Puts a record for each live entry whose first slot is not below slot, in the order of slots, at the start of out, up to
 * the first that does not fit. A record has the numbers that sfs_list answers, 8 bytes each as enum sfs_record says, and then
 * the path; the next one follows at once, so that records are not aligned. To list all, start with 0 and go on with next
 * while refusal is 0 and next is not; the image is judged once a call. With no entry left the refusal is 0, and so are count,
 * length and next. Refusals: 1 to 8; 18 where not even the first record fits.
 */
struct sfs_records sfs_list_all(const uint8_t *image, size_t image_len, uint64_t slot, uint8_t *out, size_t out_len);

/* Puts the bytes of a file at the start of out. Refusals: 1 to 8, 10, 11, 17, 18. */
struct sfs_content sfs_read(const uint8_t *image, size_t image_len, const uint8_t *path, size_t path_len,
                            uint8_t *out, size_t out_len);

/* Creates a file with its bytes. Refusals: 1 to 10, 12, 13, 15, 16. */
uint32_t sfs_create_file(uint8_t *image, size_t image_len, const uint8_t *path, size_t path_len,
                         const uint8_t *bytes, size_t bytes_len, int64_t stamp);

/* Creates a directory. Refusals: 1 to 10, 12, 13, 15. */
uint32_t sfs_create_directory(uint8_t *image, size_t image_len, const uint8_t *path, size_t path_len, int64_t stamp);

/*
 * Deletes a file or an empty directory and wipes it, in both editions. Every byte of a file's region, also behind the file's
 * length, becomes zero, and the entry's slots become unused ones: no byte of the content is left in the region, and the name
 * is not in the slots. The data area is trimmed to the regions that are left, those of kept deleted files among them, and only
 * if its size changes the volume gets the stamp. What was deleted cannot be restored. An older entry of the path that was
 * deleted and kept stays: to wipe it too, restore it and delete it again. Refusals: 1 to 11, 14.
 */
uint32_t sfs_delete(uint8_t *image, size_t image_len, const uint8_t *path, size_t path_len, int64_t stamp);

/*
 * Deletes a file or an empty directory, and wipes and trims nothing: what sfs_delete did in interface 1. In edition 1.0 its
 * slots and blocks stay held until a reclaim; before that, sfs_restore can bring it back. In 1.10 its slots become unused ones
 * and its blocks are free at once: it cannot be restored, and the stamp appears nowhere. Refusals: 1 to 11, 14, each where
 * sfs_delete gives it.
 */
uint32_t sfs_delete_keep(uint8_t *image, size_t image_len, const uint8_t *path, size_t path_len, int64_t stamp);

/*
 * Brings the file or directory of a path back that was deleted and kept, with its bytes and with this stamp; a directory
 * comes back without what was below it. 11: no deleted entry has the path, live or not. 12: one has, and the path
 * is live again. 13: its directory is not live. 19: two or more deleted entries have the path, and none is chosen. In edition
 * 1.10 no deleted entry is kept, so that a volume that opens gets 10 or 11. Refusals: 1 to 13, 19.
 */
uint32_t sfs_restore(uint8_t *image, size_t image_len, const uint8_t *path, size_t path_len, int64_t stamp);

/*
 * Frees what deleted entries hold, which cannot be restored any more, and trims the data area to the regions that are left;
 * in edition 1.10 it only trims. It wipes no block: what is to be wiped is restored and deleted. Refusals: 1 to 9.
 */
uint32_t sfs_reclaim(uint8_t *image, size_t image_len, int64_t stamp);

/*
 * Puts the listing program's text of an image at the start of out and gives its length. The text of an image that is refused
 * says so, "refused 6\n", and that of one of more than SFS_LISTING_IMAGE_MAX bytes is "refused 1\n"; neither is a refusal of
 * this call. Refusal: 18 where out has less than SFS_LISTING_ROOM bytes.
 */
struct sfs_content sfs_listing(const uint8_t *image, size_t image_len, uint8_t *out, size_t out_len);

/*
 * Counts an image in a report, SFS_REPORT_NUMBERS numbers of the caller's that are all 0 at first. Of an image that opens it
 * adds, for each kind, the slots (continuing ones too), the blocks of regions and the bytes of files; the answer is 0. Marker
 * and volume identifier are not counted, and in edition 1.10 deleted runs and stray slots are unused ones. Of an image that does
 * not open it adds one to the count of its refusal, 1 to 8, which is also the answer; more than SFS_REPORT_IMAGE_MAX bytes are
 * 1. Numbers behind the first SFS_REPORT_NUMBERS are not touched. Sums and counts are those of uint64_t; from zeros none can
 * wrap within 1,000 images. 18, before any other: the report has fewer numbers, and nothing is counted. So an answer of 1 to 8
 * is no failure of this call.
 */
uint32_t sfs_report_add(const uint8_t *image, size_t image_len, uint64_t *report, size_t report_len);

/*
 * Puts the text of a report at the start of out and gives its length: a line for each kind with its three sums, a line with
 * the refusals that occurred and how often, and a line with the count of files that could not be read. Refusal: 18 where the
 * report has less than SFS_REPORT_NUMBERS numbers or out less than SFS_REPORT_ROOM bytes.
 */
struct sfs_content sfs_report_text(const uint64_t *report, size_t report_len, uint8_t *out, size_t out_len);

#ifdef __cplusplus
}
#endif

#endif
