/* The live entries of a volume. */
#ifndef ENTRIES_H
#define ENTRIES_H

#include <stddef.h>
#include <stdint.h>

#include "image.h"

struct entry {
    uint64_t kind, length;
    int64_t stamp;
    const uint8_t *path;
    size_t path_length;
};

struct entries {
    struct entry *list; /* in the order of paths, byte by byte */
    size_t count;
    uint8_t *records;   /* what the library answered, where the paths lie */
};

/* Gathers all entries; gives the library's refusal, after which the list is not to be looked at. */
uint32_t entries_read(struct entries *entries, const struct image *image);

void entries_free(struct entries *entries);

#endif
