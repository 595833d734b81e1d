// Words of stored vectors.
#ifndef STORED_H
#define STORED_H

#include "bytes.h"
#include "description.h"

// Writes a word, the lowest byte first.
void put_word(uint32_t word);
void put_words(const Words *words);

// Writes the number of the words, and the words.
void put_counted(const Words *words);

// Writes the number of the bytes, and the bytes, four to a word and the first of them lowest; zeros fill the last word.
void put_counted_bytes(const Bytes *bytes);

#endif
