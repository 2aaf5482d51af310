/* The place of an image that is to change: a name in a directory, and the regular file that it leads to. */
#ifndef PLACE_H
#define PLACE_H

#include <stdbool.h>
#include <sys/stat.h>

#include "image.h"

struct place {
    const char *name;   /* as it was given */
    char *path;         /* with links followed */
    const char *base;   /* its last part */
    int directory;      /* that it is in */
    int file;           /* open and locked; other writers wait */
    struct stat found;  /* what the file was when it was locked */
    bool made;          /* by this command */
};

/* Locks the file that a name leads to. -1 and errno where the system refuses. */
int place_lock(struct place *place, const char *name);

/* Makes an empty file that was not there, and locks it; EEXIST where it is there after all. */
int place_make(struct place *place, const char *name);

/* Loads the image of a locked place, as if it were of a length; NULL: of its own. */
int place_load(const struct place *place, struct image *image, const size_t *length);

/* Whether the file has the image's bytes already. */
bool place_holds(const struct place *place, const struct image *image);

/* Puts the image in the file's place, whole or not at all. */
int place_replace(const struct place *place, const struct image *image);

/* Gives the lock back, and removes an empty file that was made for nothing; gives the status on. */
int place_leave(struct place *place, int status);

#endif
