// A growing run of bytes, and lines of standard input.
#ifndef BYTES_H
#define BYTES_H

#include <stdbool.h>
#include <stddef.h>

typedef struct {
    char *at;
    size_t count;
    size_t room;
} Bytes;

void bytes_add(Bytes *bytes, char byte);
void bytes_add_all(Bytes *bytes, const char *more, size_t count);
void bytes_free(Bytes *bytes);

// Reads a line of standard input without its newline, ended by a zero byte that is not counted;
// false at the end of the input.
bool line_next(Bytes *line);

#endif
