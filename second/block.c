// House blocks: the sums of a check by their weights, and a block judged by making it anew.
#include "block.h"

#include <string.h>

enum { CHECKED_BYTES = 508, SUM_LIMIT = 65535 };

void bytes_add_number(Bytes *bytes, uint32_t number, size_t size) {
    for (size_t index = 0; index < size; index++) {
        bytes_add(bytes, (char)(number >> 8 * index & 0xFF));
    }
}

uint32_t number_at(const Bytes *bytes, size_t place, size_t size) {
    uint32_t number = 0;
    for (size_t index = size; index > 0; index--) {
        number = number << 8 | (unsigned char)bytes->at[place + index - 1];
    }
    return number;
}

// The sum of the bytes, and the sum in which a byte counts once for itself and once for each after it:
// as often as it is in the first sum's values. Neither needs more than 32 bits.
static void add_check(Bytes *file, size_t start) {
    uint32_t plain = 0;
    uint32_t weighed = 0;
    for (uint32_t index = 0; index < CHECKED_BYTES; index++) {
        uint32_t byte = (unsigned char)file->at[start + index];
        plain += byte;
        weighed += (CHECKED_BYTES - index) * byte;
    }
    bytes_add_number(file, plain % SUM_LIMIT, 2);
    bytes_add_number(file, weighed % SUM_LIMIT, 2);
}

void block_add(Bytes *file, const char *content, size_t used, uint32_t number) {
    size_t start = file->count;
    bytes_add_all(file, content, used);
    while (file->count < start + CONTENT_BYTES) {
        bytes_add(file, 0);
    }
    bytes_add_number(file, number, 2);
    add_check(file, start);
}

bool block_is_whole(const Bytes *file, uint32_t number, size_t used) {
    const char *found = file->at + (size_t)BLOCK_BYTES * number;
    Bytes made = {0};
    block_add(&made, found, used, number);
    bool same = memcmp(made.at, found, BLOCK_BYTES) == 0;
    bytes_free(&made);
    return same;
}
