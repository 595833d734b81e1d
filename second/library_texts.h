// Random texts of libraries, and stored ones.
#ifndef LIBRARY_TEXTS_H
#define LIBRARY_TEXTS_H

#include "random.h"

// Prints a text for every command, now and then a bad one, in hexadecimal digits.
void print_library_text(Random *random);

// Writes a random library as it is written, listed and read, and what the areas hold afterwards.
void put_random_library(Random *random);

// Writes a small library, and what listing and reading it gives with each byte changed in turn.
void put_changed_library(Random *random);

#endif
