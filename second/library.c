// Libraries: an index is a table of structs, from which the file is made; what stands in a file is
// judged by making it anew from what was read there.
#include "library.h"

#include <string.h>

enum { COUNT_BYTES = 2, ENTRY_BYTES = 8, WORD_BYTES = 4 };

uint32_t blocks_of(uint32_t words) {
    return words / WORDS_A_BLOCK + (words % WORDS_A_BLOCK != 0);
}

uint32_t words_in_block(const Entry *entry, uint32_t block) {
    uint32_t left = entry->words - WORDS_A_BLOCK * block;
    return left < WORDS_A_BLOCK ? left : WORDS_A_BLOCK;
}

// Puts an entry behind those that are there, its blocks behind theirs.
static void index_add(Index *index, uint32_t identifier, uint32_t words) {
    index->entries[index->count++] = (Entry){identifier, words, index->blocks};
    index->blocks += blocks_of(words);
}

// The content of block 0.
static Bytes index_bytes(const Index *index) {
    Bytes bytes = {0};
    bytes_add_number(&bytes, (uint32_t)index->count, 2);
    for (size_t place = 0; place < index->count; place++) {
        const Entry *entry = &index->entries[place];
        bytes_add_number(&bytes, entry->identifier, 2);
        bytes_add_number(&bytes, entry->first, 2);
        bytes_add_number(&bytes, entry->words, 2);
        bytes_add_number(&bytes, 0, 2);
    }
    return bytes;
}

static void add_words(Bytes *file, uint32_t number, const uint32_t *words, size_t count) {
    Bytes content = {0};
    for (size_t index = 0; index < count; index++) {
        bytes_add_number(&content, words[index], WORD_BYTES);
    }
    block_add(file, content.at, content.count, number);
    bytes_free(&content);
}

static Bytes file_of(const Index *index, const Words *words) {
    Bytes content = index_bytes(index);
    Bytes file = {0};
    size_t from = 0;
    block_add(&file, content.at, content.count, 0);
    for (size_t place = 0; place < index->count; place++) {
        const Entry *entry = &index->entries[place];
        for (uint32_t block = 0; block < blocks_of(entry->words); block++) {
            uint32_t here = words_in_block(entry, block);
            add_words(&file, entry->first + block, words->at + from, here);
            from += here;
        }
    }
    bytes_free(&content);
    return file;
}

static Index index_of(const Words *entries) {
    Index index = {.blocks = 1};
    for (size_t place = 0; place + 1 < entries->count; place += 2) {
        index_add(&index, entries->at[place], entries->at[place + 1]);
    }
    return index;
}

Bytes library_made(const Words *entries, const Words *words) {
    Index index = index_of(entries);
    return file_of(&index, words);
}

// Whether every identifier is over the one before it.
static bool identifiers_rise(const Index *index) {
    bool rise = true;
    for (size_t place = 1; place < index->count; place++) {
        rise &= index->entries[place - 1].identifier < index->entries[place].identifier;
    }
    return rise;
}

static bool words_between(const Index *index, uint32_t least, uint32_t most) {
    bool between = true;
    for (size_t place = 0; place < index->count; place++) {
        uint32_t words = index->entries[place].words;
        between &= least <= words && words <= most;
    }
    return between;
}

// Whether block 0 is the one that an index of these identifiers and words is written to.
static bool is_start(const Bytes *file, const Index *index) {
    Bytes content = index_bytes(index);
    bool same = memcmp(content.at, file->at, content.count) == 0;
    bytes_free(&content);
    return same;
}

// The first blocks and the last numbers are not read: they are what an index made anew has.
static uint32_t index_judge(const Bytes *file, uint32_t count, Index *index) {
    *index = (Index){.blocks = 1};
    if (count > MOST_ENTRIES) {
        return LIBRARY_INDEX;
    }
    for (size_t place = COUNT_BYTES; index->count < count; place += ENTRY_BYTES) {
        index_add(index, number_at(file, place, 2), number_at(file, place + 4, 2));
    }
    bool good = identifiers_rise(index) && words_between(index, LEAST_WORDS, MOST_WORDS) &&
                is_start(file, index) && (size_t)BLOCK_BYTES * index->blocks == file->count;
    return good ? 0 : LIBRARY_INDEX;
}

uint32_t index_read(const Bytes *file, Index *index) {
    if (file->count == 0 || file->count % BLOCK_BYTES != 0) {
        return LIBRARY_LENGTH;
    }
    uint32_t count = number_at(file, 0, 2);
    size_t used = count > MOST_ENTRIES ? CONTENT_BYTES : COUNT_BYTES + ENTRY_BYTES * count;
    return block_is_whole(file, 0, used) ? index_judge(file, count, index) : LIBRARY_START;
}

bool is_damaged(const Bytes *file, const Entry *entry, uint32_t block) {
    size_t used = (size_t)WORD_BYTES * words_in_block(entry, block);
    return !block_is_whole(file, entry->first + block, used);
}

static bool any_damaged(const Bytes *file, const Entry *entry) {
    bool any = false;
    for (uint32_t block = 0; block < blocks_of(entry->words); block++) {
        any |= is_damaged(file, entry, block);
    }
    return any;
}

static Words words_of(const Bytes *file, const Entry *entry) {
    Words words = {0};
    for (uint32_t block = 0; block < blocks_of(entry->words); block++) {
        size_t start = (size_t)BLOCK_BYTES * (entry->first + block);
        for (uint32_t word = 0; word < words_in_block(entry, block); word++) {
            words_add(&words, number_at(file, start + WORD_BYTES * word, WORD_BYTES));
        }
    }
    return words;
}

static bool is_description(const uint32_t *words, size_t count) {
    Description description;
    bool good = description_read(words, count, &description);
    if (good) {
        description_free(&description);
    }
    return good;
}

// Words that are handed over where there is room for them.
static Reading reading_of(Words words, size_t room) {
    Reading reading = {.told = (uint32_t)words.count};
    if (words.count > room) {
        reading.number = LIBRARY_NO_ROOM;
        words_free(&words);
    }
    reading.result = words;
    return reading;
}

static Reading read_entry(const Bytes *file, const Entry *entry, size_t room) {
    if (any_damaged(file, entry)) {
        return (Reading){.number = LIBRARY_DAMAGED};
    }
    Words words = words_of(file, entry);
    if (!is_description(words.at, words.count)) {
        words_free(&words);
        return (Reading){.number = LIBRARY_MALFORMED};
    }
    return reading_of(words, room);
}

Reading library_read(const Bytes *file, uint32_t identifier, size_t room) {
    Index index;
    uint32_t refused = index_read(file, &index);
    if (refused != 0) {
        return (Reading){.number = refused};
    }
    for (size_t place = 0; place < index.count; place++) {
        if (index.entries[place].identifier == identifier) {
            return read_entry(file, &index.entries[place], room);
        }
    }
    return (Reading){.number = LIBRARY_ABSENT};
}

Reading library_list(const Bytes *file, size_t room) {
    Index index;
    Words list = {0};
    uint32_t refused = index_read(file, &index);
    if (refused != 0) {
        return (Reading){.number = refused};
    }
    for (size_t place = 0; place < index.count; place++) {
        words_add(&list, index.entries[place].identifier);
        words_add(&list, index.entries[place].words);
    }
    return reading_of(list, room);
}

// Whether entries are pairs, at most 60, that an index may have; words under 3 are no description's,
// and not looked at here.
static bool is_listable(const Words *entries) {
    if (entries->count % 2 != 0 || entries->count > 2 * MOST_ENTRIES) {
        return false;
    }
    Index index = index_of(entries);
    return identifiers_rise(&index) && words_between(&index, 0, MOST_WORDS) &&
           (index.count == 0 || index.entries[index.count - 1].identifier < IDENTIFIER_END);
}

// Whether the words of each entry are there, and are a description's.
static bool are_descriptions(const Words *entries, const Words *words) {
    size_t from = 0;
    bool good = true;
    for (size_t place = 1; good && place < entries->count; place += 2) {
        size_t count = entries->at[place];
        good = count > 0 && count <= words->count - from && is_description(words->at + from, count);
        from += count;
    }
    return good;
}

Writing library_write(const Words *entries, const Words *words, size_t room) {
    if (!is_listable(entries)) {
        return (Writing){.number = LIBRARY_ENTRIES};
    }
    if (!are_descriptions(entries, words)) {
        return (Writing){.number = LIBRARY_MALFORMED};
    }
    Writing writing = {.file = library_made(entries, words)};
    writing.told = (uint32_t)writing.file.count;
    if (writing.file.count > room) {
        writing.number = LIBRARY_NO_ROOM;
        bytes_free(&writing.file);
    }
    return writing;
}
