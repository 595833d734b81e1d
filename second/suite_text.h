// Suites as texts, with names for the tests.
#ifndef SUITE_TEXT_H
#define SUITE_TEXT_H

#include "bytes.h"
#include "suite.h"

enum { LONGEST_SUITE_TEXT = 1048576, SUITE_ROOM = 2048 };

typedef struct {
    Suite suite;
    Bytes *names; // one a test; empty where the text has none
} NamedSuite;

// Reads a suite from a text; false for bad input. What was read is freed in both cases.
bool suite_parse(const char *text, size_t length, NamedSuite *named);
void named_suite_free(NamedSuite *named);

// The suite of the text on standard input, with areas of 2,048 and 16,384 words, and what came of
// it.
int run_suite(void);

// The same for the text in a file.
int run_suite_file(const char *path);

// One text in hexadecimal digits a line from standard input; an empty line after each answer.
int run_suites(void);

#endif
