#include "entries.h"

#include <stdlib.h>
#include <string.h>

#include "words.h"

/* A command that lists writes to no image, so that it may end here. */
static void *larger(void *room, size_t bytes) {
    room = realloc(room, bytes);
    if (room == NULL)
        exit(system_error("memory"));
    return room;
}

/* One call has room for the records of any volume of today; what one did not answer the next does. */
static uint32_t gather(struct entries *entries, const struct image *image) {
    struct sfs_records found = {0};
    size_t length = 0;
    do {
        entries->records = larger(entries->records, length + SFS_RECORDS_ROOM);
        found = sfs_list_all(image->bytes, image->length, found.next, entries->records + length, SFS_RECORDS_ROOM);
        entries->count += (size_t)found.count;
        length += (size_t)found.length;
    } while (found.next != 0);
    return found.refusal;
}

static uint64_t number_at(const uint8_t *place) {
    uint64_t number = 0;
    for (int byte = 7; byte >= 0; byte--)
        number = number << 8 | place[byte];
    return number;
}

static struct entry entry_of(const uint8_t *record) {
    struct entry entry = {
        .kind = number_at(record + SFS_RECORD_KIND),
        .length = number_at(record + SFS_RECORD_LENGTH),
        .path = record + SFS_RECORD_PATH,
        .path_length = (size_t)number_at(record + SFS_RECORD_PATH_LENGTH),
    };
    uint64_t stamp = number_at(record + SFS_RECORD_STAMP);
    memcpy(&entry.stamp, &stamp, sizeof stamp);
    return entry;
}

static void take_apart(struct entries *entries) {
    const uint8_t *record = entries->records;
    entries->list = larger(NULL, (entries->count + 1) * sizeof *entries->list);
    for (size_t i = 0; i < entries->count; i++) {
        entries->list[i] = entry_of(record);
        record = entries->list[i].path + entries->list[i].path_length;
    }
}

static int by_path(const void *left, const void *right) {
    const struct entry *a = left, *b = right;
    int order = memcmp(a->path, b->path, a->path_length < b->path_length ? a->path_length : b->path_length);
    return order != 0 ? order : (a->path_length > b->path_length) - (a->path_length < b->path_length);
}

uint32_t entries_read(struct entries *entries, const struct image *image) {
    *entries = (struct entries){0};
    uint32_t refusal = gather(entries, image);
    if (refusal != SFS_OK)
        return refusal;
    take_apart(entries);
    qsort(entries->list, entries->count, sizeof *entries->list, by_path);
    return SFS_OK;
}

void entries_free(struct entries *entries) {
    free(entries->list);
    free(entries->records);
}
