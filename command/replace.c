/*
 * An image's file is never written. A new one is written beside it and takes its name in one step, so that whoever opens
 * the name, after a crash too, finds the old image or the new one, and whoever has the old file open keeps it.
 */
#define _GNU_SOURCE /* O_NOFOLLOW, copy_file_range, fallocate, fchown, sync_file_range */
#include "place.h"

#include <errno.h>
#include <fcntl.h>
#include <limits.h>
#include <stdio.h>
#include <string.h>
#include <unistd.h>

#include "words.h"

/* Through here go the old file's bytes where they do: memory of their length would take longer than they. */
static uint8_t passing[262144];

/* The first bytes of a range that pass at once, up to a place that is a multiple of their number. */
static struct range first_of(struct range range) {
    size_t most = (range.start / sizeof passing + 1) * sizeof passing;
    return (struct range){range.start, range.end < most ? range.end : most};
}

static bool holds_there(const struct image *image, struct range there) {
    return read_range(image->file, passing, there) == 0
        && memcmp(passing, image->bytes + there.start, there.end - there.start) == 0;
}

static bool holds_part(const struct image *image, struct range part) {
    bool same = true;
    while (same && part.start < part.end) {
        struct range first = first_of(part);
        same = holds_there(image, first);
        part.start = first.end;
    }
    return same;
}

bool place_holds(const struct place *place, const struct image *image) {
    bool same = place->found.st_size == (off_t)image->length;
    for (enum part part = 0; same && part < PARTS; part++)
        same = holds_part(image, image->parts[part]);
    return same;
}

static bool is_zero(const uint8_t *bytes, size_t length) {
    static const uint8_t zeros[PIECE];
    return memcmp(bytes, zeros, length) == 0;
}

/* The first piece from a place on that is all zeros, or that is not. */
static size_t next_piece(const uint8_t *bytes, size_t at, size_t end, bool zero) {
    while (at < end && is_zero(bytes + at, end - at < PIECE ? end - at : PIECE) != zero)
        at = end - at < PIECE ? end : at + PIECE;
    return at;
}

/* The pieces that are not all zeros, as many as there are in a row at a time. */
static int write_pieces(int file, const uint8_t *bytes, struct range range) {
    size_t start = 0, end = range.end - range.start;
    while ((start = next_piece(bytes, start, end, false)) < end) {
        size_t stop = next_piece(bytes, start, end, true);
        if (write_bytes(file, bytes + start, stop - start, range.start + start) != 0)
            return -1;
        start = stop;
    }
    return 0;
}

/* The disk may begin with what the flush at the end would else wait for; that flush alone tells whether it went well. */
static void begin_flush(int file, struct range range) {
    sync_file_range(file, (off_t)range.start, (off_t)(range.end - range.start), SYNC_FILE_RANGE_WRITE);
}

/* Has the system copy a range, all of it or an unknown part. */
static bool copied(int from, int to, struct range range) {
    off_t at = (off_t)range.start, there = at;
    size_t length = range.end - range.start;
    return copy_file_range(from, &at, to, &there, length, 0) == (ssize_t)length;
}

/*
 * Of a file with holes the system copies what it holds, and the holes stay. One without may be full of zeros, and is looked
 * through for them; and so is what cannot be copied otherwise.
 */
static int pass(const struct image *image, int to, struct range range) {
    if ((!image->holes || !copied(image->file, to, range))
        && (read_range(image->file, passing, range) != 0 || write_pieces(to, passing, range) != 0))
        return -1;
    begin_flush(to, range);
    return 0;
}

static int copy(const struct image *image, int to, struct range range) {
    while (range.start < range.end) {
        struct range first = first_of(range);
        if (pass(image, to, first) != 0)
            return -1;
        range.start = first.end;
    }
    return 0;
}

/* What the old file holds in a range, less its holes. */
static int copy_held(const struct image *image, int to, struct range range) {
    struct range held;
    while (next_held(image->file, range, &held)) {
        held.start = held.start / PIECE * PIECE;
        if (image->holes) /* all of it is to be written, and room that is taken at once is taken sooner */
            fallocate(to, FALLOC_FL_KEEP_SIZE, (off_t)held.start, (off_t)(held.end - held.start));
        if (copy(image, to, held) != 0)
            return -1;
        range.start = held.end;
    }
    return 0;
}

/* The parts in memory, and before each what the old file has between them. */
static int write_image(int file, const struct image *image) {
    size_t at = 0;
    if (ftruncate(file, (off_t)image->length) != 0)
        return -1;
    for (enum part i = 0; i < PARTS; i++) {
        struct range part = image->parts[i];
        struct range before = {at, part.start < image->held ? part.start : image->held};
        if (copy_held(image, file, before) != 0 || write_pieces(file, image->bytes + part.start, part) != 0)
            return -1;
        at = part.end;
    }
    begin_flush(file, (struct range){0, at});
    return 0;
}

/* Who may not give a file away keeps it; a group is tried alone. Another group may do what all others may. */
static int keep_owner_and_mode(int file, const struct stat *old) {
    mode_t mode = old->st_mode & 0777, others = old->st_mode & 07;
    if (fchown(file, old->st_uid, old->st_gid) != 0 && fchown(file, (uid_t)-1, old->st_gid) != 0) {
        if (errno != EPERM && errno != EINVAL)
            return -1;
        mode = (mode & 0707) | others << 3;
    }
    return fchmod(file, mode); /* last, as a change of owner may change it */
}

/* A program that takes no lock may have written to the old file, or cut it short, since it was locked: what was copied may be a mixture then. */
static int is_untouched(const struct place *place) {
    struct stat now;
    if (fstat(place->file, &now) != 0)
        return -1;
    if (now.st_size == place->found.st_size && now.st_mtim.tv_sec == place->found.st_mtim.tv_sec
        && now.st_mtim.tv_nsec == place->found.st_mtim.tv_nsec)
        return 0;
    errno = EBUSY;
    return -1;
}

/* The lock is held, so that a file of the new one's name was left by a writer who was killed. */
static int write_new(const struct place *place, const char *new_name, const struct image *image) {
    unlinkat(place->directory, new_name, 0);
    int file = openat(place->directory, new_name, O_WRONLY | O_CREAT | O_EXCL | O_NOFOLLOW | O_CLOEXEC, 0600);
    if (file < 0)
        return -1;
    int written = keep_owner_and_mode(file, &place->found);
    if (written == 0)
        written = write_image(file, image);
    posix_fadvise(image->file, 0, 0, POSIX_FADV_DONTNEED); /* the old file's pages go while the disk is at work */
    if (written == 0)
        written = fsync(file);
    int error = errno;
    if (close(file) != 0 && written == 0)
        return -1;
    errno = error;
    return written;
}

int place_replace(const struct place *place, const struct image *image) {
    char new_name[NAME_MAX + sizeof "..sfs-new"];
    snprintf(new_name, sizeof new_name, ".%s.sfs-new", place->base);
    if (write_new(place, new_name, image) != 0 || is_untouched(place) != 0
        || renameat(place->directory, new_name, place->directory, place->base) != 0) {
        int status = system_error("%s: not changed, as %s could not be put in its place", place->name, new_name);
        unlinkat(place->directory, new_name, 0);
        return status;
    }
    if (fsync(place->directory) != 0)
        return system_error("%s: replaced by the new image, but its directory could not be flushed", place->name);
    return 0;
}
