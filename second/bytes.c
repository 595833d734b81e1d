// Growing runs of bytes, and reading lines into them.
#include "bytes.h"

#include "description.h"

#include <stdio.h>
#include <stdlib.h>

void bytes_add(Bytes *bytes, char byte) {
    if (bytes->count == bytes->room) {
        bytes->room = bytes->room == 0 ? 64 : 2 * bytes->room;
        bytes->at = resized(bytes->at, bytes->room, 1);
    }
    bytes->at[bytes->count++] = byte;
}

void bytes_add_all(Bytes *bytes, const char *more, size_t count) {
    for (size_t index = 0; index < count; index++) {
        bytes_add(bytes, more[index]);
    }
}

void bytes_free(Bytes *bytes) {
    free(bytes->at);
    *bytes = (Bytes){0};
}

bool line_next(Bytes *line) {
    line->count = 0;
    int byte = getchar();
    bool found = byte != EOF;
    while (byte != EOF && byte != '\n') {
        bytes_add(line, (char)byte);
        byte = getchar();
    }
    bytes_add(line, '\0');
    line->count--;
    return found;
}
