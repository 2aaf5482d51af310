/* mkdir, rm, restore and reclaim. */
#include "change.h"

#include <string.h>

#include "commands.h"
#include "place.h"
#include "words.h"

int change_status(const struct change *change, const char *path, uint32_t refusal) {
    return refusal == SFS_OK ? 0 : refused(change->arguments->command, change->image.name, path, refusal);
}

int change_image(const struct arguments *arguments, image_work *work, const void *more) {
    const char *name = arguments->operands[0];
    struct change change = {.arguments = arguments, .more = more};
    struct place place;
    int status = arguments_stamp(arguments, &change.stamp);
    if (status != 0)
        return status;
    if (place_lock(&place, name) != 0)
        return system_error("%s", name);
    status = place_load(&place, &change.image, NULL);
    if (status == 0)
        status = work(&change);
    if (status == 0 && !(change.idle && place_holds(&place, &change.image)))
        status = place_replace(&place, &change.image);
    return place_leave(&place, status);
}

/* What sfs_create_directory, sfs_delete, sfs_delete_keep and sfs_restore are. */
typedef uint32_t path_call(uint8_t *image, size_t image_len, const uint8_t *path, size_t path_len, int64_t stamp);

static int change_paths(const struct change *change, path_call *call) {
    const struct arguments *arguments = change->arguments;
    int status = 0;
    for (int i = 1; status == 0 && i < arguments->operand_count; i++) {
        const char *path = arguments->operands[i];
        status = change_status(change, path, call(change->image.bytes, change->image.length, (const uint8_t *)path, strlen(path),
                                                  change->stamp));
    }
    return status;
}

static int make_directories(struct change *change) {
    return change_paths(change, sfs_create_directory);
}

/*
 * Of one path the image takes the blocks that are wiped. They are found before the call, as nothing tells afterwards where they
 * were. The call's refusal is told first, since it alone may be 9.
 */
static int wipe_one(struct change *change) {
    const char *path = change->arguments->operands[1];
    struct range region;
    uint32_t refusal = image_region(&change->image, path, &region);
    int status = change_paths(change, sfs_delete);
    if (status == 0)
        status = change_status(change, path, refusal);
    return status == 0 ? image_take_region(&change->image, region) : status;
}

/* As a put of several: the data area is read and taken as a whole, and before the calls, which trim it. */
static int wipe_several(struct change *change) {
    int status = image_read_between(&change->image);
    if (status == 0)
        status = change_status(change, NULL, image_take_data_area(&change->image));
    return status == 0 ? change_paths(change, sfs_delete) : status;
}

static int delete_entries(struct change *change) {
    if (given(change->arguments, OPTION_KEEP))
        return change_paths(change, sfs_delete_keep);
    return change->arguments->operand_count == 2 ? wipe_one(change) : wipe_several(change);
}

static int restore_entries(struct change *change) {
    return change_paths(change, sfs_restore);
}

/* Every other call that is accepted changes an entry. */
static int reclaim(struct change *change) {
    change->idle = true;
    return change_status(change, NULL, sfs_reclaim(change->image.bytes, change->image.length, change->stamp));
}

int run_mkdir(const struct arguments *arguments) {
    return change_image(arguments, make_directories, NULL);
}

int run_rm(const struct arguments *arguments) {
    return change_image(arguments, delete_entries, NULL);
}

int run_restore(const struct arguments *arguments) {
    return change_image(arguments, restore_entries, NULL);
}

int run_reclaim(const struct arguments *arguments) {
    return change_image(arguments, reclaim, NULL);
}
