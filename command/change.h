/* The frame of the commands that change a volume: all of their calls are accepted, or the file stays as it was. */
#ifndef CHANGE_H
#define CHANGE_H

#include <stdint.h>

#include "arguments.h"
#include "image.h"

/* What a command is told to do, to which image, and when. */
struct change {
    const struct arguments *arguments;
    struct image image;
    int64_t stamp;
    const void *more; /* that only this command's work knows */
    bool idle;        /* the calls may have been accepted and have changed nothing */
};

/* A command's calls on the image in memory; gives the exit status. */
typedef int image_work(struct change *change);

/* Tells a refusal of one of these calls; path may be NULL. Gives the exit status, which is 0 where nothing was refused. */
int change_status(const struct change *change, const char *path, uint32_t refusal);

/* Locks and loads the first operand, has the work done, and replaces the file. */
int change_image(const struct arguments *arguments, image_work *work, const void *more);

#endif
