#define _GNU_SOURCE /* MADV_POPULATE_WRITE, SEEK_DATA, SEEK_HOLE */
#include "files.h"

#include <errno.h>
#include <sys/mman.h>
#include <unistd.h>

/* No huge pages: of an image few pages are touched, and what the system clears for one is more than those. */
uint8_t *take_zeros(size_t length) {
    uint8_t *bytes = mmap(NULL, length, PROT_READ | PROT_WRITE, MAP_PRIVATE | MAP_ANONYMOUS, -1, 0);
    return bytes != MAP_FAILED ? bytes : NULL;
}

void free_zeros(uint8_t *bytes, size_t length) {
    munmap(bytes, length);
}

/* Where the system cannot, it is only slower. */
void touch_pages(uint8_t *bytes, size_t length) {
#ifdef MADV_POPULATE_WRITE
    madvise(bytes, length, MADV_POPULATE_WRITE);
#else
    (void)bytes, (void)length;
#endif
}

int read_bytes(int file, uint8_t *bytes, size_t length, size_t *got) {
    *got = 0;
    while (*got < length) {
        ssize_t more = read(file, bytes + *got, length - *got);
        if (more < 0)
            return -1;
        if (more == 0)
            return 0;
        *got += (size_t)more;
    }
    return 0;
}

int read_range(int file, uint8_t *bytes, struct range range) {
    for (size_t at = range.start; at < range.end;) {
        ssize_t more = pread(file, bytes + (at - range.start), range.end - at, (off_t)at);
        if (more == 0)
            errno = EIO; /* it has been cut short since its length was asked */
        if (more <= 0)
            return -1;
        at += (size_t)more;
    }
    return 0;
}

int write_bytes(int file, const uint8_t *bytes, size_t length, size_t at) {
    size_t done = 0;
    while (done < length) {
        ssize_t more = pwrite(file, bytes + done, length - done, (off_t)(at + done));
        if (more < 0)
            return -1;
        done += (size_t)more;
    }
    return 0;
}

/* Behind the last of what is held SEEK_DATA answers ENXIO. A file system that knows no holes holds all. */
bool next_held(int file, struct range range, struct range *held) {
    if (range.start >= range.end)
        return false;
    off_t start = lseek(file, (off_t)range.start, SEEK_DATA);
    if (start < 0 && errno == ENXIO)
        return false;
    *held = range;
    if (start < 0)
        return true;
    off_t end = lseek(file, start, SEEK_HOLE);
    if (start > (off_t)range.start)
        held->start = (size_t)start;
    if (end >= 0 && end < (off_t)range.end)
        held->end = (size_t)end;
    return held->start < held->end;
}
