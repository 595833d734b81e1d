// The word layout of document 01 told once more, apart from the second program's reader.
#ifndef RECOGNISE_H
#define RECOGNISE_H

#include <stdbool.h>
#include <stddef.h>
#include <stdint.h>

enum { CHOICES_CAP = 4097 };

// Whether the words are a description.
bool well_formed(const uint32_t *words, size_t count);

// The number of choices of the description in the words, stopping at 4,097.
uint32_t choices_of(const uint32_t *words);

#endif
