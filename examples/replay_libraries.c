// Runs stored libraries of the second program through the C entry points, and compares what comes of each with what is
// stored: the number, what is told, and every word or byte of the area. Standard input has the libraries as
// second/README.md says; what is printed is how many calls came out as stored, by their numbers.
#include "bublastyr.h"

#include <stdio.h>
#include <stdlib.h>
#include <string.h>

#define MOST_WORDS 65536
#define MOST_BYTES (BUBLASTYR_LONGEST_LIBRARY + 2048)
#define NUMBERS 48

static uint32_t entries[MOST_WORDS], words[MOST_WORDS], result[MOST_WORDS], expected[MOST_WORDS];
static uint8_t file[MOST_BYTES], stored_file[MOST_BYTES];

// How many calls came out as stored, by their numbers, and how many otherwise.
static unsigned right[NUMBERS], wrong;

static void broken(const char *what) {
    fprintf(stderr, "the stored libraries are broken: %s\n", what);
    exit(EXIT_FAILURE);
}

static uint32_t next(void) {
    unsigned char bytes[4];
    if (fread(bytes, 1, sizeof bytes, stdin) != sizeof bytes) {
        broken("they end too early");
    }
    return (uint32_t)bytes[0] | (uint32_t)bytes[1] << 8 | (uint32_t)bytes[2] << 16 |
           (uint32_t)bytes[3] << 24;
}

// A number that is at most `most`.
static uint32_t bounded(uint32_t most) {
    uint32_t number = next();
    if (most < number) {
        broken("a number is too large");
    }
    return number;
}

static uint32_t next_words(uint32_t *at) {
    uint32_t count = bounded(MOST_WORDS);
    for (uint32_t index = 0; index < count; index++) {
        at[index] = next();
    }
    return count;
}

// Bytes stand four to a word.
static uint32_t next_bytes(uint8_t *at) {
    uint32_t count = bounded(MOST_BYTES), word = 0;
    for (uint32_t index = 0; index < count; index++) {
        word = index % 4 == 0 ? next() : word >> 8;
        at[index] = (uint8_t)(word & 0xFF);
    }
    return count;
}

static void count_call(int is_right, uint32_t number) {
    if (is_right && number < NUMBERS) {
        right[number]++;
    } else {
        wrong++;
    }
}

// What stands at a place before a call.
static uint8_t before(uint32_t place) {
    return (uint8_t)(place % 251 + 1);
}

// Whether a file of `count` bytes has the stored ones in front, and else what stood there before.
static int file_right(uint32_t count, uint32_t size) {
    int same = size <= count && memcmp(file, stored_file, size) == 0;
    for (uint32_t index = size; same && index < count; index++) {
        same = file[index] == before(index);
    }
    return same;
}

// The same for the result area and words.
static int result_right(uint32_t count, uint32_t size) {
    int same = size <= count && memcmp(result, expected, size * sizeof *result) == 0;
    for (uint32_t index = size; same && index < count; index++) {
        same = result[index] == before(index);
    }
    return same;
}

static void replay_writing(void) {
    uint32_t told[1] = {77}, entry_count = next_words(entries), word_count = next_words(words);
    uint32_t room = bounded(MOST_BYTES), stored = next(), stored_told = next();
    uint32_t size = next_bytes(stored_file);
    for (uint32_t index = 0; index < room; index++) {
        file[index] = before(index);
    }
    uint32_t number =
        bublastyr_library_write(entries, entry_count, words, word_count, file, room, told);
    count_call(number == stored && told[0] == stored_told && file_right(room, size), number);
}

// Lists the stored file or, where an identifier is given, reads a description of it.
static uint32_t call(uint32_t size, const uint32_t *identifier, uint32_t room, uint32_t told[1]) {
    for (uint32_t index = 0; index < room; index++) {
        result[index] = before(index);
    }
    return identifier == NULL
               ? bublastyr_library_list(stored_file, size, result, room, told)
               : bublastyr_library_read(stored_file, size, *identifier, result, room, told);
}

static void replay_call(uint32_t size, const uint32_t *identifier) {
    uint32_t told[1] = {77}, room = bounded(MOST_WORDS), stored = next(), stored_told = next();
    uint32_t count = next_words(expected);
    uint32_t number = call(size, identifier, room, told);
    count_call(number == stored && told[0] == stored_told && result_right(room, count), number);
}

// A file that is listed, and three descriptions of it.
static void replay_file(void) {
    uint32_t size = next_bytes(stored_file);
    replay_call(size, NULL);
    for (int read = 0; read < 3; read++) {
        uint32_t identifier = next();
        replay_call(size, &identifier);
    }
}

// A file with each byte changed in turn: the number of listing it, and of reading its descriptions.
static void replay_changes(void) {
    uint32_t size = next_bytes(stored_file), count = next_words(entries), told[1];
    for (uint32_t place = 0; place < size; place++) {
        uint8_t kept = stored_file[place];
        stored_file[place] = (uint8_t)bounded(255);
        uint32_t number = call(size, NULL, BUBLASTYR_LONGEST_LIST, told);
        count_call(number == next(), number);
        for (uint32_t entry = 0; entry < count; entry += 2) {
            number = call(size, &entries[entry], 1024, told);
            count_call(number == next(), number);
        }
        stored_file[place] = kept;
    }
}

int main(void) {
    static void (*const kinds[])(void) = {replay_writing, replay_file, replay_changes};
    for (uint32_t kind = next(); kind != UINT32_MAX; kind = next()) {
        if (2 < kind) {
            broken("a record is of no kind");
        }
        kinds[kind]();
    }
    printf("libraries as stored with number 0: %u", right[0]);
    for (uint32_t number = 40; number < NUMBERS; number++) {
        printf(", %u: %u", (unsigned)number, right[number]);
    }
    printf("\notherwise: %u\n", wrong);
    return wrong == 0 ? EXIT_SUCCESS : EXIT_FAILURE;
}
