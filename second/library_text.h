// The text interface of libraries: a line with a command and an identifier, and what it is about.
#ifndef LIBRARY_TEXT_H
#define LIBRARY_TEXT_H

#include "library.h"

// List a file, read a description of it, check all its blocks; write entries and words.
enum { COMMAND_LIST = 1, COMMAND_READ = 2, COMMAND_CHECK = 3, COMMAND_WRITE = 4 };

// A text that has so many bytes is bad input.
enum { LIBRARY_TEXT_END = 720896 };

// The most entry words and words that may be typed.
enum { MOST_ENTRY_WORDS = 122, MOST_TYPED_WORDS = 65536 };

// One text from standard input, answered on standard output.
int run_library(void);

#endif
