// Stored libraries: what is lent, the numbers, and what stands in the areas afterwards.
#include "library_texts.h"

#include "library_shapes.h"
#include "stored.h"

// What a record is of.
enum { STORED_WRITING, STORED_FILE, STORED_CHANGES };

// A room that is ample, exact, a step short or none.
static uint32_t random_room(Random *random, uint32_t need) {
    const uint32_t rooms[] = {need + 7, need, need, need - (need > 0), 0};
    return rooms[random_below(random, 5)];
}

// Entries, words, the size of the file, the number, the bytes told, and those that are written.
static void put_writing(Random *random) {
    Library library = random_asked(random);
    Writing ample = library_write(&library.entries, &library.words, SIZE_MAX);
    uint32_t room = random_room(random, ample.told);
    Writing writing = library_write(&library.entries, &library.words, room);
    put_word(STORED_WRITING);
    put_counted(&library.entries);
    put_counted(&library.words);
    put_word(room);
    put_word(writing.number);
    put_word(writing.told);
    put_counted_bytes(&writing.file);
    bytes_free(&ample.file);
    bytes_free(&writing.file);
    library_free(&library);
}

// The size of the area, the number, the words told, and those that are written; it is consumed.
static void put_reading(uint32_t room, Reading reading) {
    put_word(room);
    put_word(reading.number);
    put_word(reading.told);
    put_counted(&reading.result);
    words_free(&reading.result);
}

static void put_list(Random *random, const Bytes *file) {
    Reading ample = library_list(file, SIZE_MAX);
    uint32_t room = random_room(random, ample.told);
    put_reading(room, library_list(file, room));
    words_free(&ample.result);
}

static void put_read(Random *random, const Bytes *file) {
    uint32_t identifier = random_identifier(random, file);
    Reading ample = library_read(file, identifier, SIZE_MAX);
    uint32_t room = random_room(random, ample.told);
    put_word(identifier);
    put_reading(room, library_read(file, identifier, room));
    words_free(&ample.result);
}

// A file, its list, and three descriptions that are read.
static void put_file(Random *random) {
    Bytes file = random_file(random);
    put_word(STORED_FILE);
    put_counted_bytes(&file);
    put_list(random, &file);
    for (uint32_t index = 0; index < 3; index++) {
        put_read(random, &file);
    }
    bytes_free(&file);
}

void put_random_library(Random *random) {
    if (random_one_in(random, 3)) {
        put_writing(random);
    } else {
        put_file(random);
    }
}

static void put_number_of(Reading reading) {
    put_word(reading.number);
    words_free(&reading.result);
}

// A file without damage of two to four blocks.
static Bytes small_file(Random *random, Library *library) {
    Bytes file = {0};
    while (file.count < 2 * BLOCK_BYTES || file.count > 4 * BLOCK_BYTES) {
        bytes_free(&file);
        library_free(library);
        *library = random_library(random);
        file = library_made(&library->entries, &library->words);
    }
    return file;
}

// The file, its entries, and for each byte in turn what stands there then, the number of listing the
// file, and the numbers of reading its descriptions.
void put_changed_library(Random *random) {
    Library library = {0};
    Bytes file = small_file(random, &library);
    put_word(STORED_CHANGES);
    put_counted_bytes(&file);
    put_counted(&library.entries);
    for (size_t place = 0; place < file.count; place++) {
        char kept = file.at[place];
        file.at[place] = (char)(kept ^ (1 + random_below(random, 255)));
        put_word((unsigned char)file.at[place]);
        put_number_of(library_list(&file, SIZE_MAX));
        for (size_t entry = 0; entry < library.entries.count; entry += 2) {
            put_number_of(library_read(&file, library.entries.at[entry], SIZE_MAX));
        }
        file.at[place] = kept;
    }
    bytes_free(&file);
    library_free(&library);
}
