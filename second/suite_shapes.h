// Random suites.
#ifndef SUITE_SHAPES_H
#define SUITE_SHAPES_H

#include "random.h"
#include "suite.h"

// A suite, and the sizes of the areas lent to it.
typedef struct {
    Suite suite;
    uint32_t room;
    uint32_t work;
} SuiteCall;

// A suite with areas of all sizes; every refusal is common. Its word area and its result area have
// at most 4,096 words, and it has at most 100 tests.
SuiteCall random_suite_call(Random *random);

// A suite that names no words beyond the area, for areas of the given sizes; it may be refused.
Suite random_suite_within(Random *random, uint32_t room, uint32_t work);

// Expects of a test something else than what is expected of it: number, readings or both.
void expect_otherwise(Random *random, Test *test);

#endif
