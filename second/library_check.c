// The self-check of libraries: numbers are held to the rules one by one, the writer and the reader to each other, and
// damage to what it may cost.
#include "check.h"

#include "library_rules.h"
#include "library_shapes.h"

#include <inttypes.h>
#include <stdio.h>
#include <string.h>

enum { NUMBERS = 48 };

// What the check works with, and what it has counted.
typedef struct {
    Random random;
    const char *failure; // what went wrong first, or null
    uint64_t read[NUMBERS];
    uint64_t written[NUMBERS];
} LibraryCheck;

static void demand(LibraryCheck *check, bool holds, const char *failure) {
    if (!holds && check->failure == NULL) {
        check->failure = failure;
    }
}

static bool same_words(const uint32_t *left, const Words *right) {
    return right->count == 0 || memcmp(left, right->at, 4 * right->count) == 0;
}

// With just enough room it is the same, with a word less it is refused and tells the need.
static void check_room(LibraryCheck *check, const Reading *full, Reading exact, Reading less) {
    demand(check, exact.number == 0 && exact.told == full->told, "refused with room enough");
    demand(check, exact.result.count == full->told, "other words than told");
    if (full->told > 0) {
        demand(check, less.number == 46 && less.told == full->told, "46 does not tell the need");
        demand(check, less.result.count == 0, "a refusal writes words");
    }
    words_free(&exact.result);
    words_free(&less.result);
}

// Reads an identifier: the number is that of the rules, and 44 comes where a block of it is damaged.
static uint32_t check_read(LibraryCheck *check, const Bytes *file, uint32_t identifier) {
    Reading full = library_read(file, identifier, SIZE_MAX);
    check->read[full.number]++;
    demand(check, full.number == rule_of_read(file, identifier),
           "read otherwise than by the rules");
    if (full.number == 0) {
        check_room(check, &full, library_read(file, identifier, full.told),
                   library_read(file, identifier, full.told - 1));
    } else {
        demand(check, full.told == 0 && full.result.count == 0, "a refusal tells words");
    }
    words_free(&full.result);
    return full.number;
}

// Whether a description that can be read is added to the library.
static bool read_back(const Bytes *file, uint32_t identifier, Library *library) {
    Reading reading = library_read(file, identifier, SIZE_MAX);
    words_add(&library->entries, identifier);
    words_add(&library->entries, reading.told);
    words_add_all(&library->words, reading.result.at, reading.result.count);
    words_free(&reading.result);
    return reading.number == 0;
}

// Where all that is listed can be read, writing it gives the file again.
static void check_written_back(LibraryCheck *check, const Bytes *file, const Words *list) {
    Library library = {0};
    bool all = true;
    for (size_t place = 0; place < list->count; place += 2) {
        all &= read_back(file, list->at[place], &library);
    }
    if (all) {
        Writing writing = library_write(&library.entries, &library.words, file->count);
        demand(check, writing.number == 0 && writing.told == file->count, "not written again");
        demand(check, writing.number != 0 || memcmp(writing.file.at, file->at, file->count) == 0,
               "what was read is written otherwise");
        bytes_free(&writing.file);
    }
    library_free(&library);
}

// A file in whatever state.
static void check_file(LibraryCheck *check) {
    Bytes file = random_file(&check->random);
    Reading list = library_list(&file, SIZE_MAX);
    demand(check, list.number == rule_of_start(&file), "listed otherwise than by the rules");
    if (list.number == 0) {
        check_room(check, &list, library_list(&file, list.told),
                   library_list(&file, list.told == 0 ? 0 : list.told - 1));
        check_written_back(check, &file, &list.result);
    }
    for (size_t place = 0; place < list.result.count; place += 2) {
        check_read(check, &file, list.result.at[place]);
    }
    check_read(check, &file, random_identifier(&check->random, &file));
    words_free(&list.result);
    bytes_free(&file);
}

// The number that reading an entry gives after one byte of a block is changed.
static uint32_t number_after(const Entry *entry, uint32_t block) {
    bool within = entry->first <= block && block < entry->first + blocks_of(entry->words);
    return block == 0 ? 41 : within ? 44 : 0;
}

// One byte changed costs the file where it is in block 0, and else the description in its block alone.
static void check_one_byte(LibraryCheck *check, Bytes *file, const Index *index) {
    uint32_t place = random_below(&check->random, (uint32_t)file->count);
    char kept = file->at[place];
    file->at[place] = (char)(kept ^ (1 + random_below(&check->random, 255)));
    for (size_t entry = 0; entry < index->count; entry++) {
        uint32_t expected = number_after(&index->entries[entry], place / BLOCK_BYTES);
        demand(check, check_read(check, file, index->entries[entry].identifier) == expected,
               "a changed byte costs something else");
    }
    file->at[place] = kept;
}

// What was written lists as its entries, and each description reads as its words.
static void check_written(LibraryCheck *check, const Library *library, Bytes *file) {
    Index index;
    Reading list = library_list(file, library->entries.count);
    demand(check, list.number == 0 && list.told == library->entries.count, "not listed");
    demand(check, list.number != 0 || same_words(library->entries.at, &list.result), "other list");
    words_free(&list.result);
    size_t from = 0;
    for (size_t place = 0; place < library->entries.count; place += 2) {
        Reading reading = library_read(file, library->entries.at[place], SIZE_MAX);
        demand(check, reading.number == 0 && reading.told == library->entries.at[place + 1],
               "what was written cannot be read");
        demand(check, same_words(library->words.at + from, &reading.result),
               "other words are read");
        from += reading.told;
        words_free(&reading.result);
    }
    demand(check, index_read(file, &index) == 0, "what was written has a bad index");
    check_one_byte(check, file, &index);
}

static void check_library(LibraryCheck *check) {
    Library library = random_asked(&check->random);
    Writing writing = library_write(&library.entries, &library.words, SIZE_MAX);
    check->written[writing.number]++;
    demand(check, writing.number == rule_of_write(&library.entries, &library.words),
           "written otherwise than by the rules");
    if (writing.number == 0) {
        Writing less = library_write(&library.entries, &library.words, writing.told - 1);
        demand(check, writing.told == writing.file.count, "other bytes than told");
        demand(check, less.number == 46 && less.told == writing.told, "46 does not tell the bytes");
        demand(check, less.file.count == 0, "a refusal writes bytes");
        check_written(check, &library, &writing.file);
    } else {
        demand(check, writing.told == 0 && writing.file.count == 0, "a refusal tells bytes");
    }
    bytes_free(&writing.file);
    library_free(&library);
}

int run_check_libraries(uint64_t seed, uint64_t count) {
    LibraryCheck check = {.random = {seed}};
    for (uint64_t done = 0; done < count && check.failure == NULL; done++) {
        check_library(&check);
        check_file(&check);
    }
    printf("self-check seed %" PRIu64 ": %" PRIu64 " libraries, written 0, 45, 47: %" PRIu64
           " %" PRIu64 " %" PRIu64 "; descriptions read 0, 40 to 45:",
           seed, count, check.written[0], check.written[45], check.written[47]);
    printf(" %" PRIu64, check.read[0]);
    for (size_t number = 40; number <= 45; number++) {
        printf(" %" PRIu64, check.read[number]);
    }
    putchar('\n');
    if (check.failure != NULL) {
        printf("difference: %s\n", check.failure);
    }
    return check.failure == NULL ? 0 : 1;
}
