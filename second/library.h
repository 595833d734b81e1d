// The libraries of request Eight: descriptions with identifiers, in a file of house blocks.
#ifndef LIBRARY_H
#define LIBRARY_H

#include "block.h"
#include "description.h"

enum {
    MOST_ENTRIES = 60,
    WORDS_A_BLOCK = 126,
    LEAST_WORDS = 3,
    MOST_WORDS = 1024,
    IDENTIFIER_END = 65536
};

// The refusals.
enum {
    LIBRARY_LENGTH = 40,
    LIBRARY_START = 41,
    LIBRARY_INDEX = 42,
    LIBRARY_ABSENT = 43,
    LIBRARY_DAMAGED = 44,
    LIBRARY_MALFORMED = 45,
    LIBRARY_NO_ROOM = 46,
    LIBRARY_ENTRIES = 47
};

// A description in an index: how many words it has, and the block in which they begin.
typedef struct {
    uint32_t identifier;
    uint32_t words;
    uint32_t first;
} Entry;

typedef struct {
    Entry entries[MOST_ENTRIES];
    size_t count;
    uint32_t blocks; // of the whole file
} Index;

// A number, the words that were read or those that are needed, and the words after number 0.
typedef struct {
    uint32_t number;
    uint32_t told;
    Words result;
} Reading;

// The same for bytes that were written.
typedef struct {
    uint32_t number;
    uint32_t told;
    Bytes file;
} Writing;

// How many blocks so many words take.
uint32_t blocks_of(uint32_t words);

// The words of an entry that stand in one of its blocks, counted from 0.
uint32_t words_in_block(const Entry *entry, uint32_t block);

// Reads the index of a file; answers 0, 40, 41 or 42.
uint32_t index_read(const Bytes *file, Index *index);

// Whether one of the blocks of an entry, counted from 0, is damaged.
bool is_damaged(const Bytes *file, const Entry *entry, uint32_t block);

// Reads the description of an identifier into a result area of so many words.
Reading library_read(const Bytes *file, uint32_t identifier, size_t room);

// Lists the identifiers and numbers of words.
Reading library_list(const Bytes *file, size_t room);

// Writes entries, each an identifier and a number of words, whose words follow each other, into a file
// of so many bytes.
Writing library_write(const Words *entries, const Words *words, size_t room);

// The file of entries and words whatever they are; the words are there, and no rule is looked at but
// that there are at most 60 entries.
Bytes library_made(const Words *entries, const Words *words);

#endif
