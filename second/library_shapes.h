// Random libraries to be written, and random files of them.
#ifndef LIBRARY_SHAPES_H
#define LIBRARY_SHAPES_H

#include "library.h"
#include "random.h"

// Entries, each an identifier and a number of words, and the words of their descriptions.
typedef struct {
    Words entries;
    Words words;
} Library;

void library_free(Library *library);

// A library that the writer takes, with descriptions that fill a block exactly, or several.
Library random_library(Random *random);

// A library that now and then is refused, for every reason; it has at most 122 entry words.
Library random_asked(Random *random);

// A file of a library, mostly damaged, in every way.
Bytes random_file(Random *random);

// An identifier that mostly is one of the file's, or next to one.
uint32_t random_identifier(Random *random, const Bytes *file);

// Makes block `place` of a file anew from its content, with check and number.
void block_seal(Bytes *file, size_t place, uint32_t number);

#endif
