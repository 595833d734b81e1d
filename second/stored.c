// Writing words of stored vectors to standard output.
#include "stored.h"

#include <stdio.h>

void put_word(uint32_t word) {
    for (int shift = 0; shift < 32; shift += 8) {
        putchar((int)(word >> shift & 0xFF));
    }
}

void put_words(const Words *words) {
    for (size_t index = 0; index < words->count; index++) {
        put_word(words->at[index]);
    }
}

void put_counted(const Words *words) {
    put_word((uint32_t)words->count);
    put_words(words);
}

void put_counted_bytes(const Bytes *bytes) {
    put_word((uint32_t)bytes->count);
    for (size_t index = 0; index < bytes->count; index++) {
        putchar((unsigned char)bytes->at[index]);
    }
    for (size_t index = bytes->count; index % 4 != 0; index++) {
        putchar(0);
    }
}
