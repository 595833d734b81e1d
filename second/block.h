// House blocks of document 01: 506 bytes of content, a number and a check.
#ifndef BLOCK_H
#define BLOCK_H

#include "bytes.h"

#include <stdint.h>

enum { BLOCK_BYTES = 512, CONTENT_BYTES = 506 };

// Adds a number in so many bytes, the lowest first.
void bytes_add_number(Bytes *bytes, uint32_t number, size_t size);

// The number that stands in so many bytes.
uint32_t number_at(const Bytes *bytes, size_t place, size_t size);

// Adds the block of a number with some content, at most 506 bytes; zeros fill it up.
void block_add(Bytes *file, const char *content, size_t used, uint32_t number);

// Whether block `number` of a file, of whose content the first `used` bytes are used, is as
// `block_add` makes it; the file has such a block.
bool block_is_whole(const Bytes *file, uint32_t number, size_t used);

#endif
