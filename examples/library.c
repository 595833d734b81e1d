// Writes a library of two descriptions through the C entry point, lists it and reads it back; then one byte is flipped, which
// costs the description in whose block it stands and no other, and one in block 0, which costs the file.
#include "bublastyr.h"

#include <stdio.h>
#include <stdlib.h>

#define COUNT(array) (sizeof(array) / sizeof(array)[0])

// Description 7 says nothing; in description 9 feature 1 is atom 10 or atom 11.
static const uint32_t entries[] = {7, 3, 9, 16};
static const uint32_t words[] = {1, 0, 0, 1, 0, 1, 2, 2, 1, 1, 1, 65546, 0, 2, 1, 1, 1, 65547, 0};

static uint8_t file[BUBLASTYR_LONGEST_LIBRARY];
static uint32_t told[1];

static void print_words(const uint32_t *at, uint32_t count) {
    for (uint32_t index = 0; index < count; index++) {
        printf(" %u", (unsigned)at[index]);
    }
}

// Reads a description and prints its number and, after 0, its words.
static void print_read(uint32_t identifier, size_t file_len) {
    uint32_t result[1024];
    uint32_t number =
        bublastyr_library_read(file, file_len, identifier, result, COUNT(result), told);
    printf("description %u: %u", (unsigned)identifier, (unsigned)number);
    if (number == BUBLASTYR_DONE) {
        print_words(result, told[0]);
    }
    putchar('\n');
}

static void print_list(size_t file_len) {
    uint32_t list[BUBLASTYR_LONGEST_LIST];
    uint32_t number = bublastyr_library_list(file, file_len, list, COUNT(list), told);
    printf("list: %u", (unsigned)number);
    if (number == BUBLASTYR_DONE) {
        print_words(list, told[0]);
    }
    putchar('\n');
}

static void print_all(size_t file_len) {
    print_list(file_len);
    print_read(7, file_len);
    print_read(9, file_len);
}

int main(void) {
    uint32_t number = bublastyr_library_write(entries, COUNT(entries), words, COUNT(words), file,
                                              BUBLASTYR_BLOCK, told);
    printf("in one block: %u, %u bytes are needed\n", (unsigned)number, (unsigned)told[0]);
    number = bublastyr_library_write(entries, COUNT(entries), words, COUNT(words), file,
                                     sizeof file, told);
    printf("written: %u, %u bytes\n", (unsigned)number, (unsigned)told[0]);
    if (number != BUBLASTYR_DONE) {
        return EXIT_FAILURE;
    }
    size_t length = told[0];
    print_all(length);
    print_read(8, length);
    puts("a byte of block 1 is flipped");
    file[BUBLASTYR_BLOCK + 100] ^= 1;
    print_all(length);
    puts("a byte of block 0 is flipped");
    file[100] ^= 1;
    print_all(length);
    return EXIT_SUCCESS;
}
