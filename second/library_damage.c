// Damaged files of libraries: bytes, blocks and index entries changed, with the checks as they were or made anew.
#include "library_shapes.h"

#include <string.h>

void block_seal(Bytes *file, size_t place, uint32_t number) {
    Bytes made = {0};
    char *block = file->at + BLOCK_BYTES * place;
    block_add(&made, block, CONTENT_BYTES, number);
    memcpy(block, made.at, BLOCK_BYTES);
    bytes_free(&made);
}

static size_t random_block(Random *random, const Bytes *file) {
    return random_below(random, (uint32_t)(file->count / BLOCK_BYTES));
}

static void change_byte(Random *random, Bytes *file, size_t place) {
    file->at[place] = (char)(file->at[place] ^ (1 + random_below(random, 255)));
}

static void put_number(Bytes *file, size_t place, uint32_t number) {
    file->at[place] = (char)(number & 0xFF);
    file->at[place + 1] = (char)(number >> 8 & 0xFF);
}

// One byte anywhere, which the check shows.
static void damage_check(Random *random, Bytes *file) {
    change_byte(random, file, random_below(random, (uint32_t)file->count));
}

// One byte of the content, often near the end of what is used, and the check made anew.
static void damage_content(Random *random, Bytes *file) {
    size_t block = random_block(random, file);
    uint32_t within = random_one_in(random, 2) ? 40 : CONTENT_BYTES;
    change_byte(random, file, BLOCK_BYTES * block + random_below(random, within));
    block_seal(file, block, (uint32_t)block);
}

static void damage_number(Random *random, Bytes *file) {
    size_t block = random_block(random, file);
    block_seal(file, block, random_one_in(random, 2) ? (uint32_t)block + 1 : 65535);
}

// A sum of 0 told as 65,535, or both sums exchanged.
static void damage_sums(Random *random, Bytes *file) {
    size_t place = BLOCK_BYTES * random_block(random, file) + CONTENT_BYTES + 2;
    uint32_t first = number_at(file, place, 2);
    uint32_t second = number_at(file, place + 2, 2);
    put_number(file, place, first == 0 ? 65535 : second);
    put_number(file, place + 2, first == 0 ? second : first);
}

static void damage_length(Random *random, Bytes *file) {
    static const size_t steps[] = {1, 2, 256, 511, 512, 512, 512, 1024};
    size_t step = steps[random_below(random, 8)];
    if (random_one_in(random, 2)) {
        file->count -= step < file->count ? step : file->count;
        return;
    }
    for (size_t index = 0; index < step; index++) {
        bytes_add(file, 0);
    }
}

static void exchange_blocks(Random *random, Bytes *file) {
    char kept[BLOCK_BYTES];
    char *left = file->at + BLOCK_BYTES * random_block(random, file);
    char *right = file->at + BLOCK_BYTES * random_block(random, file);
    memcpy(kept, left, BLOCK_BYTES);
    memmove(left, right, BLOCK_BYTES);
    memcpy(right, kept, BLOCK_BYTES);
}

static void damage_count(Random *random, Bytes *file) {
    uint32_t count = number_at(file, 0, 2);
    const uint32_t counts[] = {count + 1, count - 1, 60, 61, 61, 256, 65535};
    put_number(file, 0, counts[random_below(random, 7)]);
    block_seal(file, 0, 0);
}

// One of the four numbers of an entry.
static void damage_entry(Random *random, Bytes *file) {
    static const uint32_t words[] = {0, 1, 2, 3, 126, 127, 1024, 1025, 65535};
    uint32_t count = number_at(file, 0, 2) % (MOST_ENTRIES + 1);
    size_t entry = 2 + 8 * (size_t)random_below(random, count == 0 ? 1 : count);
    size_t place = entry + 2 * (size_t)random_below(random, 4);
    uint32_t number = number_at(file, place, 2);
    if (place == entry + 4 && random_one_in(random, 2)) {
        number = words[random_below(random, 9)];
    } else {
        number += random_one_in(random, 2) ? 1 : UINT32_MAX;
    }
    put_number(file, place, number);
    block_seal(file, 0, 0);
}

static void damage_file(Random *random, Bytes *file) {
    static void (*const ways[])(Random *, Bytes *) = {
        damage_check, damage_content, damage_content, damage_number, damage_sums,  damage_count,
        damage_entry, damage_entry,   damage_length,  damage_check,  damage_entry, exchange_blocks,
    };
    if (file->count >= BLOCK_BYTES) {
        ways[random_below(random, sizeof ways / sizeof *ways)](random, file);
    }
}

// Words with which a description is malformed stand in it now and then.
static Bytes made_file(Random *random) {
    Library library = random_library(random);
    if (library.words.count > 0 && random_one_in(random, 6)) {
        uint32_t place = random_below(random, (uint32_t)library.words.count);
        library.words.at[place] = random_below(random, 4);
    }
    Bytes file = library_made(&library.entries, &library.words);
    library_free(&library);
    return file;
}

Bytes random_file(Random *random) {
    static const uint32_t many[] = {0, 1, 1, 1, 2};
    Bytes file = made_file(random);
    uint32_t times = many[random_below(random, 5)];
    for (uint32_t time = 0; time < times; time++) {
        damage_file(random, &file);
    }
    return file;
}
