// The two public entries of document 01: unification and the fit test.
#ifndef UNIFY_H
#define UNIFY_H

#include "description.h"

enum { LONGEST_INPUT = 1024, WORKING_NEEDED = 16384 };

// The numbers that come back.
enum {
    SUCCESS = 0,
    UNKNOWN_MODE = 1,
    WORKING_SMALL = 2,
    INPUT_LONG = 3,
    FIRST_MALFORMED = 4,
    SECOND_MALFORMED = 5,
    CLASH = 6, // the definite graphs clash; in the fit test, the structure does not satisfy
    CHOICES_MANY = 7,
    RESULT_LONG = 8,
    STRUCTURE_DISJUNCTIVE = 9,
    QUICK_FAILS = 10,
    NO_CHOICE = 11
};

enum { MODE_JOIN = 0, MODE_QUICK = 1, MODE_FULL = 2 };

typedef struct {
    uint32_t number;
    uint32_t length;
    uint32_t readings;
    uint32_t node; // after 6 the smallest node whose class holds a clash, else 0
    Words result;  // empty unless the number is 0; freed by the caller
} Outcome;

// Whether a number of unification says that the two inputs do not agree.
bool is_clash(uint32_t number);

// Unifies two descriptions, for a result area and a working area of the given sizes.
Outcome unify(uint32_t mode, const uint32_t *first, size_t first_length, const uint32_t *second,
              size_t second_length, size_t result_room, size_t working_room);

// Tests whether a structure satisfies a description.
uint32_t fit(const uint32_t *structure, size_t structure_length, const uint32_t *description,
             size_t description_length);

// Whether a structure satisfies a description.
bool satisfies(const Graph *structure, const Description *description);

#endif
