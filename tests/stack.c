/*
 * How much stack each call takes, on a full volume of either edition whose entries are out of order: the call runs in a thread
 * whose stack was painted.
 */
#define _XOPEN_SOURCE 700
#include <pthread.h>
#include <stdio.h>
#include <stdlib.h>
#include <string.h>
#include "../include/sfs.h"

#define IMAGE (4u << 20)
#define SMALL SFS_REPORT_IMAGE_MAX
#define STACK (1u << 20)
#define PAINT 0xA5
#define ENTRIES 4094u
/* What a thread takes of its stack that does nothing. */
static size_t idle;
static uint8_t image[IMAGE], full[IMAGE], less[IMAGE], small[SMALL], out[512];
static const uint8_t last[] = "entry 0000", gone[] = "gone";
static uint32_t edition;

static uint32_t nothing(void) { return 0; }
static uint32_t open_it(void) { return sfs_open(image, IMAGE, out, sizeof out).refusal; }
static uint32_t find_it(void) { return sfs_find(image, IMAGE, last, 10).refusal; }
static uint32_t list_it(void) { return sfs_list(image, IMAGE, 0, out, sizeof out).refusal; }
static uint32_t read_it(void) { return sfs_read(image, IMAGE, last, 10, out, sizeof out).refusal; }
static uint32_t create_it(void) { return sfs_create_file(image, IMAGE, (const uint8_t *)"new", 3, out, sizeof out, 1); }
static uint32_t make_it(void) { return sfs_create_directory(image, IMAGE, (const uint8_t *)"new", 3, 1); }
static uint32_t delete_it(void) { return sfs_delete(image, IMAGE, last, 10, 1); }
static uint32_t delete_keep_it(void) { return sfs_delete_keep(image, IMAGE, last, 10, 1); }
/* In 1.10 nothing comes back. */
static uint32_t restore_it(void) {
    uint32_t refusal = sfs_restore(image, IMAGE, gone, 4, 1);
    return refusal == SFS_NOT_FOUND && edition == SFS_VERSION_1_10 ? SFS_OK : refusal;
}
static uint32_t reclaim_it(void) { return sfs_reclaim(image, IMAGE, 1); }
static uint32_t format_it(void) { return sfs_format(image, IMAGE, edition, 512, 1, last, 4, 1); }
static uint32_t list_all_it(void) {
    static uint8_t records[SFS_RECORDS_ROOM];
    return sfs_list_all(image, IMAGE, 0, records, sizeof records).refusal;
}
static uint32_t listing_it(void) {
    static uint8_t text[SFS_LISTING_ROOM];
    return sfs_listing(image, SFS_LISTING_IMAGE_MAX, text, sizeof text).refusal;
}
/* A report takes no image of IMAGE bytes, so that it is given a full one of its own. */
static uint32_t report_add_it(void) {
    static uint64_t report[SFS_REPORT_NUMBERS];
    return sfs_report_add(small, SMALL, report, SFS_REPORT_NUMBERS);
}
/* With the longest text. */
static uint32_t report_text_it(void) {
    static uint64_t report[SFS_REPORT_NUMBERS];
    static uint8_t text[SFS_REPORT_ROOM];
    memset(report, 0xFF, sizeof report);
    return sfs_report_text(report, SFS_REPORT_NUMBERS, text, sizeof text).refusal;
}

static void *work(void *call) {
    return (void *)(uintptr_t)(*(uint32_t (**)(void))call)();
}

/* The bytes of a painted stack that a call has changed. */
static size_t stack_of(uint32_t (*call)(void), uint32_t *refusal) {
    static _Alignas(4096) uint8_t stack[STACK];
    pthread_attr_t how;
    pthread_t thread;
    void *answer;
    size_t clean = 0;
    memset(stack, PAINT, STACK);
    if (pthread_attr_init(&how) || pthread_attr_setstack(&how, stack, STACK) || pthread_create(&thread, &how, work, &call)
        || pthread_join(thread, &answer)) {
        fprintf(stderr, "no thread\n");
        exit(2);
    }
    while (clean < STACK && stack[clean] == PAINT) clean++;
    *refusal = (uint32_t)(uintptr_t)answer;
    return STACK - clean;
}

/* A deleted file. A delete in 1.10 leaves none, so it is made as other programs make one: the type, and the sum with it. */
static int drop(uint8_t *volume) {
    if (edition == SFS_VERSION_1_0) return sfs_delete_keep(volume, IMAGE, gone, 4, 1) != 0;
    struct sfs_entry found = sfs_find(volume, IMAGE, gone, 4);
    uint8_t *slot = volume + IMAGE - sfs_open(volume, IMAGE, out, sizeof out).index_bytes + found.slot * SFS_SLOT_BYTES;
    slot[0] = 0x1A;
    slot[1] = (uint8_t)(slot[1] - 0x1A + SFS_FILE);
    return found.refusal != 0 || sfs_find(volume, IMAGE, gone, 4).refusal != SFS_NOT_FOUND;
}

/* Files of a byte in an order that is none, and a deleted one among them. */
static int fill(uint8_t *volume, unsigned entries) {
    uint8_t name[16];
    if (sfs_format(volume, IMAGE, edition, 512, 1, last, 5, 1)) return 1;
    for (unsigned place = 0; place < entries; place++) {
        unsigned number = place * 1597u % 4093u;
        if (place == 7) memcpy(name, "gone      ", 11);
        else snprintf((char *)name, sizeof name, "entry %04u", place == 4093 ? 9999u : number);
        if (sfs_create_file(volume, IMAGE, name, place == 7 ? 4 : 10, name, 1, 1)) return 1;
    }
    return drop(volume);
}

/* The same in SMALL bytes, until there is no room. Of eight files one has a byte, so that there are many regions and many entries. */
static int fill_small(void) {
    uint8_t name[16];
    uint32_t refusal = sfs_format(small, SMALL, edition, 256, 2, last, 5, 1);
    unsigned place = 0;
    for (; refusal == SFS_OK; place++) {
        snprintf((char *)name, sizeof name, "entry %04u", place * 1597u % 4093u);
        refusal = sfs_create_file(small, SMALL, name, 10, name, place % 8 == 0, 1);
    }
    return place < 600 || (refusal != SFS_NO_SLOTS && refusal != SFS_NO_BLOCKS);
}

/* All calls on volumes of the edition: how many failed. */
static unsigned measured(const char *name, unsigned *count) {
    static const struct { const char *name; uint32_t (*call)(void); const uint8_t *volume; } calls[] = {
        {"open", open_it, full}, {"find", find_it, full}, {"list", list_it, full}, {"list_all", list_all_it, full},
        {"read", read_it, full},
        {"create_file", create_it, less}, {"create_directory", make_it, less}, {"delete", delete_it, full},
        {"delete_keep", delete_keep_it, full},
        {"restore", restore_it, full}, {"reclaim", reclaim_it, full}, {"format", format_it, full}, {"listing", listing_it, full},
        {"report_add", report_add_it, full}, {"report_text", report_text_it, full},
    };
    uint32_t refusal;
    unsigned failed = 0;
    if (fill(full, ENTRIES) || fill(less, ENTRIES - 1) || fill_small()) {
        fprintf(stderr, "the volumes were not made\n");
        exit(2);
    }
    for (unsigned i = 0; i < sizeof calls / sizeof *calls; i++) {
        memcpy(image, calls[i].volume, IMAGE);
        size_t bytes = stack_of(calls[i].call, &refusal) - idle;
        printf("%s, %s: %zu bytes of stack\n", name, calls[i].name, bytes);
        if (refusal || bytes > SFS_STACK_MAX) {
            printf("%s, %s: refusal %u, or more than %u bytes\n", name, calls[i].name, refusal, SFS_STACK_MAX);
            failed++;
        }
        ++*count;
    }
    return failed;
}

int main(void) {
    uint32_t refusal;
    unsigned failed = 0, count = 0;
    idle = stack_of(nothing, &refusal);
    edition = SFS_VERSION_1_0;
    failed += measured("1.0", &count);
    edition = SFS_VERSION_1_10;
    failed += measured("1.10", &count);
    printf("%u passed, %u failed\n", count - failed, failed);
    return failed != 0;
}
