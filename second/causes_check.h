// The demands on causes and places, for any run of words.
#ifndef CAUSES_CHECK_H
#define CAUSES_CHECK_H

#include "causes.h"
#include "random.h"

// What the check works with, and what it has counted.
typedef struct {
    Random random;
    const char *failure; // what went wrong first, or null
    uint64_t found[CAUSE_TOO_DEEP + 1];
    uint64_t ends[ROLE_ALTERNATIVES + 1]; // of words that end, by what was to come
    uint64_t completed;
    uint64_t stuck;
} CauseCheck;

// Holds what is found in words to the reader, to other words after the place, and to the bounds
// that are told.
void check_cause(CauseCheck *check, const Words *words);

#endif
