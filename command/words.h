/* What a person is told, on standard error. Each call gives the exit status. */
#ifndef WORDS_H
#define WORDS_H

#include <stdint.h>

/* Exit statuses beside the refusal numbers, which are below 64. */
enum { STATUS_USAGE = 65, STATUS_SYSTEM = 66 };

/* A refusal of the library, in the words of a command. path, which may be NULL, is told where the refusal is about it. */
int refused(const char *command, const char *image, const char *path, uint32_t refusal);

/* A command line that cannot be meant; command may be NULL. */
int usage_error(const char *command, const char *format, ...) __attribute__((format(printf, 2, 3)));

/* What the system refused: the text, and behind it what errno means. */
int system_error(const char *format, ...) __attribute__((format(printf, 1, 2)));

/* A file that is there and cannot serve. */
int unsuitable(const char *file, const char *why);

#endif
