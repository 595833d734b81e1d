// The suite of request Five: a table of tests over one word area, run in order with a result area
// and a working area lent once for all.
#ifndef SUITE_H
#define SUITE_H

#include "unify.h"

enum {
    MOST_TESTS = 64, // also told as the first unexpected test where there is none
    MODES = 3,
    NUMBERS = 12 // the greatest that may be expected is one less; 9 is given by no call
};

// The refusals.
enum { SUITE_LONG = 30, SUITE_BEYOND = 31, SUITE_UNKNOWN = 32 };

// Where a description stands in the word area.
typedef struct {
    uint32_t start;
    uint32_t words;
} Place;

// A record of the table; number and readings are those expected.
typedef struct {
    uint32_t mode;
    uint32_t number;
    uint32_t readings;
    Place first;
    Place second;
} Test;

typedef struct {
    Test *tests;
    size_t count;
    size_t room;
    Words words; // the word area
} Suite;

typedef struct {
    uint32_t run;
    uint32_t good;  // tests as expected
    uint32_t first; // the first that was not, from 0; 64 if none
    uint32_t counts[MODES][NUMBERS];
} Report;

void suite_add(Suite *suite, Test test);
void suite_free(Suite *suite);

// Whether a place ends after the word area.
bool is_beyond(Place place, const Words *area);

// The number by which the suite is refused, or 0.
uint32_t suite_refusal(const Suite *suite);

// What each call of a suite that is not refused gives, for areas of the given sizes; freed by
// `outcomes_free`.
Outcome *suite_outcomes(const Suite *suite, size_t result_room, size_t working_room);
void outcomes_free(Outcome *outcomes, size_t count);

bool as_expected(const Test *test, const Outcome *outcome);

// The report on a suite, from what its calls gave.
Report report_of(const Suite *suite, const Outcome *outcomes);

// Runs a suite: answers 0 or the number of a refusal. The areas and the report are as the calls
// leave them; a refusal leaves them as they came.
uint32_t suite_run(const Suite *suite, Words *result, Words *working, Report *report);

#endif
