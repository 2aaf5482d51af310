/* format: an empty volume, in a file that is there or in a new one. */
#include <errno.h>
#include <string.h>

#include "commands.h"
#include "place.h"
#include "words.h"

/* The sizes are the library's to judge. */
struct plan {
    uint64_t size; /* 0 where none was given, as the file's length stays */
    uint64_t version;
    uint64_t block_length;
    uint64_t reserved;
    const char *name;
    int64_t stamp;
};

static int read_edition(const struct arguments *arguments, uint64_t *version) {
    const char *edition = arguments->values[OPTION_EDITION];
    *version = SFS_VERSION_1_0;
    if (edition == NULL || strcmp(edition, edition_text(SFS_VERSION_1_0)) == 0)
        return 0;
    *version = SFS_VERSION_1_10;
    if (strcmp(edition, edition_text(SFS_VERSION_1_10)) == 0)
        return 0;
    return usage_error(arguments->command, "--edition: %s is neither 1.0 nor 1.10", edition);
}

/* The fewest blocks that cover what has to be reserved; any number of blocks without a length is refused. */
static uint64_t fewest_reserved(uint64_t block_length) {
    return block_length != 0 ? (SFS_IMAGE_MIN - 1) / block_length + 1 : 0;
}

static int read_plan(const struct arguments *arguments, struct plan *plan) {
    *plan = (struct plan){.block_length = 512, .name = arguments->values[OPTION_NAME]};
    if (plan->name == NULL)
        plan->name = "";
    int status = arguments_size(arguments, &plan->size);
    if (status == 0)
        status = read_edition(arguments, &plan->version);
    if (status == 0)
        status = arguments_number(arguments, OPTION_BLOCK_LENGTH, &plan->block_length);
    plan->reserved = fewest_reserved(plan->block_length);
    if (status == 0)
        status = arguments_number(arguments, OPTION_RESERVED, &plan->reserved);
    return status == 0 ? arguments_stamp(arguments, &plan->stamp) : status;
}

/* A file that another makes meanwhile is locked, and judged, as one that was there. */
static int lock_or_make(const struct arguments *arguments, struct place *place) {
    const char *name = arguments->operands[0];
    if (place_lock(place, name) == 0)
        return 0;
    if (errno == ENOENT && !given(arguments, OPTION_SIZE))
        return usage_error(arguments->command, "%s is not there, and without --size it is not made", name);
    if (errno == ENOENT && (place_make(place, name) == 0 || (errno == EEXIST && place_lock(place, name) == 0)))
        return 0;
    return system_error("%s", name);
}

/* Bytes outside the volume's own fields stay, boot code among them; what --size adds is zeros. */
static int format(const struct arguments *arguments, const struct plan *plan, const struct place *place, struct image *image) {
    size_t size = plan->size < IMAGE_ROOM ? (size_t)plan->size : IMAGE_ROOM;
    int status = place_load(place, image, given(arguments, OPTION_SIZE) ? &size : NULL);
    if (status != 0)
        return status;
    if (image->held > 0 && !given(arguments, OPTION_FORCE))
        return usage_error(arguments->command, "%s holds something already, which --force would lose", image->name);
    uint32_t refusal = sfs_format(image->bytes, image->length, plan->version, plan->block_length, plan->reserved,
                                  (const uint8_t *)plan->name, strlen(plan->name), plan->stamp);
    return refusal == SFS_OK ? 0 : refused(arguments->command, image->name, plan->name, refusal);
}

int run_format(const struct arguments *arguments) {
    struct plan plan;
    struct place place;
    struct image image;
    int status = read_plan(arguments, &plan);
    if (status == 0)
        status = lock_or_make(arguments, &place);
    if (status != 0)
        return status;
    status = format(arguments, &plan, &place, &image);
    if (status == 0 && !place_holds(&place, &image))
        status = place_replace(&place, &image);
    return place_leave(&place, status);
}
