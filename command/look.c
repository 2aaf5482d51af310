/* info and check: a volume's numbers, and whether it is one. */
#include <inttypes.h>
#include <stdio.h>

#include "commands.h"
#include "dates.h"
#include "entries.h"
#include "words.h"

/* A volume's numbers with its name, the number of its live entries, and the image's name. */
struct outline {
    const char *image;
    struct sfs_volume volume;
    uint8_t name[SFS_VOLUME_NAME_MAX];
    size_t live;
};

const char *edition_text(uint32_t edition) {
    return edition == SFS_VERSION_1_10 ? "1.10" : "1.0";
}

static uint32_t outline_read(struct outline *outline, const struct image *image) {
    struct entries entries;
    outline->volume = sfs_open(image->bytes, image->length, outline->name, sizeof outline->name);
    if (outline->volume.refusal != SFS_OK)
        return outline->volume.refusal;
    uint32_t refusal = entries_read(&entries, image);
    outline->live = entries.count;
    entries_free(&entries);
    return refusal;
}

static int look_at(const char *command, const char *name, struct outline *outline) {
    struct image image;
    int status = image_read(&image, name);
    if (status != 0)
        return status;
    outline->image = image.name;
    uint32_t refusal = outline_read(outline, &image);
    image_free(&image);
    return refusal == SFS_OK ? 0 : refused(command, image.name, NULL, refusal);
}

static void print_number(const char *field, uint64_t number) {
    printf("%-14s%" PRIu64 "\n", field, number);
}

static void print_date(const char *field, int64_t stamp) {
    char date[DATE_ROOM];
    date_of_stamp(stamp, date);
    printf("%-14s%s\n", field, date);
}

int run_info(const struct arguments *arguments) {
    struct outline outline;
    int status = look_at(arguments->command, arguments->operands[0], &outline);
    if (status != 0)
        return status;
    const struct sfs_volume *volume = &outline.volume;
    printf("%-14s%.*s\n", "name", (int)volume->name_length, (const char *)outline.name);
    printf("%-14s%s\n", "edition", edition_text(volume->edition));
    printf("%-14s0x%02X\n", "version", volume->version);
    print_number("total", volume->total);
    print_number("reserved", volume->reserved);
    print_number("block_length", volume->block_length);
    print_number("data_blocks", volume->data_blocks);
    print_number("index_bytes", volume->index_bytes);
    print_date("stamp", volume->stamp);
    print_date("volume_stamp", volume->volume_stamp);
    print_number("live_entries", outline.live);
    return 0;
}

static int check(const char *command, const char *name) {
    struct outline outline;
    int status = look_at(command, name, &outline);
    if (status != 0)
        return status;
    printf("%s: good, edition %s, %zu live %s", outline.image, edition_text(outline.volume.edition), outline.live,
           outline.live == 1 ? "entry" : "entries");
    if (outline.volume.version > outline.volume.edition)
        printf(", may only be read (version 0x%02X)", outline.volume.version);
    putchar('\n');
    return 0;
}

/* All images are looked at; the first that is not good gives the status. */
int run_check(const struct arguments *arguments) {
    int first = 0;
    for (int i = 0; i < arguments->operand_count; i++) {
        int status = check(arguments->command, arguments->operands[i]);
        if (first == 0)
            first = status;
    }
    return first;
}
