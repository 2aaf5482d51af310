/*
 * Writers exclude each other by a lock on the image's file. A writer puts a new file in its place, so that one who waited holds
 * the lock of a file that the name leads to no more, and looks again.
 *
 * A file that is not there yet is made, empty and not to be mistaken for another's (O_EXCL), before it is locked and replaced
 * like any other. Writing under another name and giving the right one at the end (link, RENAME_NOREPLACE) would leave nothing
 * of a killed format, but has no lock by which two formats could share that other name, and not every file system has
 * either. What a killed format may leave is an empty file, which formats without --force.
 */
#define _GNU_SOURCE /* flock, realpath */
#include "place.h"

#include <errno.h>
#include <fcntl.h>
#include <stdlib.h>
#include <string.h>
#include <sys/file.h>
#include <unistd.h>

#include "words.h"

/* Not waiting for the other end of a pipe. Open for writing: a write-protected image is left alone. */
#define OPEN_FLAGS (O_RDWR | O_NOFOLLOW | O_NONBLOCK | O_CLOEXEC)

static int close_all(struct place *place, int answer) {
    int error = errno;
    if (place->file >= 0)
        close(place->file);
    if (place->directory >= 0)
        close(place->directory);
    free(place->path);
    *place = (struct place){.name = place->name, .directory = -1, .file = -1};
    errno = error;
    return answer;
}

/* Takes the path over, cuts it behind its directory and opens that. */
static int open_directory(struct place *place, char *path) {
    place->path = path;
    if (path == NULL)
        return -1;
    char *slash = strrchr(path, '/');
    place->base = slash == NULL ? path : slash[1] != '\0' ? slash + 1 : ".";
    if (slash != NULL)
        *slash = '\0';
    const char *directory = slash == NULL ? "." : slash == path ? "/" : path;
    place->directory = open(directory, O_RDONLY | O_DIRECTORY | O_CLOEXEC);
    return place->directory >= 0 ? 0 : -1;
}

/* Whether the name still leads to the file that is open. */
static bool still_there(const struct place *place) {
    struct stat now;
    return fstatat(place->directory, place->base, &now, AT_SYMLINK_NOFOLLOW) == 0 && now.st_dev == place->found.st_dev
        && now.st_ino == place->found.st_ino;
}

/* Locks the open file and notes what it is. */
static int lock_file(struct place *place) {
    return place->file >= 0 && flock(place->file, LOCK_EX) == 0 && fstat(place->file, &place->found) == 0 ? 0 : -1;
}

int place_lock(struct place *place, const char *name) {
    *place = (struct place){.name = name, .directory = -1, .file = -1};
    for (;;) {
        if (open_directory(place, realpath(name, NULL)) != 0)
            return close_all(place, -1);
        place->file = openat(place->directory, place->base, OPEN_FLAGS);
        if (lock_file(place) != 0)
            return close_all(place, -1);
        if (still_there(place))
            return 0;
        close_all(place, 0);
    }
}

int place_make(struct place *place, const char *name) {
    *place = (struct place){.name = name, .directory = -1, .file = -1};
    if (open_directory(place, strdup(name)) != 0)
        return close_all(place, -1);
    place->file = openat(place->directory, place->base, OPEN_FLAGS | O_CREAT | O_EXCL, 0666);
    if (lock_file(place) != 0)
        return close_all(place, -1);
    place->made = true;
    if (still_there(place))
        return 0;
    errno = EEXIST; /* another writer was quicker to lock it, and has put his image there */
    return close_all(place, -1);
}

int place_load(const struct place *place, struct image *image, const size_t *length) {
    size_t held = image_length(&place->found);
    if (!S_ISREG(place->found.st_mode))
        return unsuitable(place->name, "not a regular file, and only such a one is changed");
    int status = image_load(image, place->name, place->file, held, length != NULL ? *length : held);
    image->holes = place->found.st_blocks < place->found.st_size / 512;
    return status;
}

/* Not where the file was replaced, nor where a program that takes no lock has written to it since it was made. */
static bool is_empty(const struct place *place) {
    struct stat now;
    return fstat(place->file, &now) == 0 && now.st_size == 0 && still_there(place);
}

int place_leave(struct place *place, int status) {
    if (place->made && is_empty(place))
        unlinkat(place->directory, place->base, 0);
    return close_all(place, status);
}
