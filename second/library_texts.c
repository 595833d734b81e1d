// Random texts of libraries: a first line in any spelling, then a file, or the numbers of what is to be written.
#include "library_texts.h"

#include "hexadecimal.h"
#include "library_shapes.h"
#include "library_text.h"

#include <inttypes.h>
#include <stdio.h>
#include <string.h>

static void add(Bytes *text, const char *piece) {
    bytes_add_all(text, piece, strlen(piece));
}

static void add_decimal(Bytes *text, uint32_t number) {
    char digits[16];
    snprintf(digits, sizeof digits, "%" PRIu32, number);
    add(text, digits);
}

// A first line, which one in twelve times may be bad.
static void add_head(Random *random, Bytes *text, uint32_t command, uint32_t identifier) {
    static const char *const before[] = {"", "\n", " ", "00", "+", "x"};
    static const char *const between[] = {" ", "\n", "  0", "\t", "", ","};
    static const char *const after[] = {"\n", "\n", "\n", " \n", "", "\r\n"};
    bool usual = random_below(random, 12) > 0;
    add(text, before[usual ? 0 : random_below(random, 6)]);
    add_decimal(text, command);
    add(text, between[usual ? 0 : random_below(random, 6)]);
    add_decimal(text, identifier);
    add(text, after[usual ? 0 : random_below(random, 6)]);
}

static void add_numbers(Random *random, Bytes *text, const Words *numbers) {
    static const char *const blanks[] = {"  ", "\n", " \n ", " 0", "\n000"};
    for (size_t index = 0; index < numbers->count; index++) {
        add(text, random_one_in(random, 40) ? blanks[random_below(random, 5)] : " ");
        add_decimal(text, numbers->at[index]);
    }
}

// Both counts, which now and then are another or over what may be typed, and all words.
static void add_library(Random *random, Bytes *text) {
    static const char *const ends[] = {"", "\n", " \n ", " 7", ".", " 4294967296"};
    static const uint32_t counts[] = {0, 1, 122, 123, 65536, 65537, UINT32_MAX};
    Library library = random_asked(random);
    Words numbers = {0};
    words_add(&numbers, (uint32_t)library.entries.count);
    words_add(&numbers, (uint32_t)library.words.count);
    words_add_all(&numbers, library.entries.at, library.entries.count);
    words_add_all(&numbers, library.words.at, library.words.count);
    if (random_one_in(random, 20)) {
        numbers.at[random_below(random, 2)] = counts[random_below(random, 7)];
    }
    add_numbers(random, text, &numbers);
    add(text, ends[random_one_in(random, 8) ? random_below(random, 6) : 0]);
    words_free(&numbers);
    library_free(&library);
}

static void add_file(Random *random, Bytes *text, uint32_t command) {
    Bytes file = random_file(random);
    add_head(random, text, command, random_identifier(random, &file));
    bytes_add_all(text, file.at, file.count);
    bytes_free(&file);
}

void print_library_text(Random *random) {
    static const uint32_t commands[] = {COMMAND_LIST,
                                        COMMAND_READ,
                                        COMMAND_READ,
                                        COMMAND_CHECK,
                                        COMMAND_WRITE,
                                        COMMAND_WRITE,
                                        0,
                                        5};
    uint32_t command = commands[random_below(random, random_one_in(random, 30) ? 8 : 6)];
    Bytes text = {0};
    if (command == COMMAND_WRITE) {
        add_head(random, &text, command, random_below(random, 3));
        add_library(random, &text);
    } else {
        add_file(random, &text, command);
    }
    print_hexadecimal(&text, stdout);
    putchar('\n');
    bytes_free(&text);
}
