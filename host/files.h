/* Whole files: read with their length, written whole or not at all. */
#ifndef FILES_H
#define FILES_H

#include <stddef.h>
#include <stdint.h>

/*
 * Reads a file. *length is its length in bytes; only the first `room` bytes are kept.
 * Answers NULL, or why it could not be read.
 */
const char *file_read(const char *name, uint8_t *bytes, size_t room, size_t *length);

/* Writes a file beside its place and renames it there. Answers NULL, or why not. */
const char *file_write(const char *name, const uint8_t *bytes, size_t length);

/* Whether something stands under this name. */
int file_is_there(const char *name);

#endif
