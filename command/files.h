/* Bytes in memory and in open files. */
#ifndef FILES_H
#define FILES_H

#include <stdbool.h>
#include <stddef.h>
#include <stdint.h>

#define PIECE ((size_t)4096) /* a page, and a file system's block: what is all zeros in one becomes a hole */

/* From a byte up to the one past the last. */
struct range {
    size_t start, end;
};

/* Zeros, which cost only where they are touched; NULL and errno where there is no memory. */
uint8_t *take_zeros(size_t length);
void free_zeros(uint8_t *bytes, size_t length);

/* Gets the memory of zeros that are about to be written at once rather than page by page; they begin with a page. */
void touch_pages(uint8_t *bytes, size_t length);

/* Reads length bytes from where the file stands, fewer only where it ends. -1 and errno where the system refuses. */
int read_bytes(int file, uint8_t *bytes, size_t length, size_t *got);

/* Reads all of a range; a file that ends within it is EIO. -1 and errno where the system refuses. */
int read_range(int file, uint8_t *bytes, struct range range);

/* Writes all of the bytes from a place on. -1 and errno where the system refuses. */
int write_bytes(int file, const uint8_t *bytes, size_t length, size_t at);

/* The first stretch of a range that is no hole of the file; false where there is none. */
bool next_held(int file, struct range range, struct range *held);

#endif
