// The demands on suites and on their texts.
#ifndef SUITE_CHECK_H
#define SUITE_CHECK_H

#include "random.h"

#include <stddef.h>

// What the check works with, and what it has counted.
typedef struct {
    Random random;
    const char *failure; // what went wrong first, or null
    uint64_t run;        // tests
    uint64_t good;
    uint64_t refused[3]; // suites, by 30, 31 and 32
    uint64_t texts;      // good texts
    uint64_t bad;
} SuiteCheck;

void suite_demand(SuiteCheck *check, bool holds, const char *failure);

// Reads a random suite back from its text, and judges a damaged text in another way.
void check_suite_text(SuiteCheck *check);

#endif
