// Suites: all faults first, then all calls, and the report from the list of what came.
#include "suite.h"

#include <stdlib.h>
#include <string.h>

void suite_add(Suite *suite, Test test) {
    if (suite->count == suite->room) {
        suite->room = suite->room == 0 ? 16 : 2 * suite->room;
        suite->tests = resized(suite->tests, suite->room, sizeof *suite->tests);
    }
    suite->tests[suite->count++] = test;
}

void suite_free(Suite *suite) {
    free(suite->tests);
    words_free(&suite->words);
    *suite = (Suite){0};
}

// The sum may need more than 32 bits.
bool is_beyond(Place place, const Words *area) {
    return (uint64_t)place.start + place.words > area->count;
}

// The faults of all records, each as twice its record, and one more for 32: the least is the one
// that is told.
static Words all_faults(const Suite *suite) {
    Words faults = {0};
    for (uint32_t record = 0; record < suite->count; record++) {
        const Test *test = &suite->tests[record];
        if (test->mode > MODE_FULL || test->number >= NUMBERS) {
            words_add(&faults, 2 * record + 1);
        }
        if (is_beyond(test->first, &suite->words) || is_beyond(test->second, &suite->words)) {
            words_add(&faults, 2 * record);
        }
    }
    return faults;
}

static uint32_t least_of(const Words *words) {
    uint32_t least = UINT32_MAX;
    for (size_t index = 0; index < words->count; index++) {
        least = words->at[index] < least ? words->at[index] : least;
    }
    return least;
}

uint32_t suite_refusal(const Suite *suite) {
    if (suite->count > MOST_TESTS) {
        return SUITE_LONG;
    }
    Words faults = all_faults(suite);
    uint32_t number = 0;
    if (faults.count > 0) {
        number = least_of(&faults) % 2 == 0 ? SUITE_BEYOND : SUITE_UNKNOWN;
    }
    words_free(&faults);
    return number;
}

// Where the words of a place begin; the area may be empty.
static const uint32_t *words_at(const Suite *suite, Place place) {
    return suite->words.count == 0 ? NULL : suite->words.at + place.start;
}

Outcome *suite_outcomes(const Suite *suite, size_t result_room, size_t working_room) {
    Outcome *outcomes = zeroed(suite->count, sizeof *outcomes);
    for (size_t index = 0; index < suite->count; index++) {
        const Test *test = &suite->tests[index];
        outcomes[index] =
            unify(test->mode, words_at(suite, test->first), test->first.words,
                  words_at(suite, test->second), test->second.words, result_room, working_room);
    }
    return outcomes;
}

void outcomes_free(Outcome *outcomes, size_t count) {
    for (size_t index = 0; index < count; index++) {
        words_free(&outcomes[index].result);
    }
    free(outcomes);
}

bool as_expected(const Test *test, const Outcome *outcome) {
    return outcome->number == test->number && outcome->readings == test->readings;
}

// How many calls of a mode gave a number.
static uint32_t count_of(const Suite *suite, const Outcome *outcomes, uint32_t mode,
                         uint32_t number) {
    uint32_t count = 0;
    for (size_t index = 0; index < suite->count; index++) {
        count += suite->tests[index].mode == mode && outcomes[index].number == number;
    }
    return count;
}

static void count_all(const Suite *suite, const Outcome *outcomes, Report *report) {
    for (uint32_t cell = 0; cell < MODES * NUMBERS; cell++) {
        uint32_t mode = cell / NUMBERS;
        uint32_t number = cell % NUMBERS;
        report->counts[mode][number] = count_of(suite, outcomes, mode, number);
    }
}

// From the last test to the first: the unexpected one that is seen last is the first.
Report report_of(const Suite *suite, const Outcome *outcomes) {
    Report report = {.run = (uint32_t)suite->count, .first = MOST_TESTS};
    count_all(suite, outcomes, &report);
    for (size_t index = suite->count; index > 0; index--) {
        if (as_expected(&suite->tests[index - 1], &outcomes[index - 1])) {
            report.good++;
        } else {
            report.first = (uint32_t)index - 1;
        }
    }
    return report;
}

// The last call that wrote the word at a place; null when none did.
static const Outcome *writer_of(const Outcome *outcomes, size_t count, size_t place) {
    const Outcome *writer = NULL;
    for (size_t index = 0; index < count; index++) {
        if (outcomes[index].result.count > place) {
            writer = &outcomes[index];
        }
    }
    return writer;
}

static void leave_result(const Outcome *outcomes, size_t count, Words *result) {
    for (size_t place = 0; place < result->count; place++) {
        const Outcome *writer = writer_of(outcomes, count, place);
        if (writer != NULL) {
            result->at[place] = writer->result.at[place];
        }
    }
}

// The first 16,384 words are zero after a call with number 0, 6, 7, 8, 10 or 11.
static void leave_working(const Outcome *outcomes, size_t count, Words *working) {
    for (size_t index = 0; index < count; index++) {
        if (outcomes[index].number == SUCCESS || outcomes[index].number >= CLASH) {
            memset(working->at, 0, WORKING_NEEDED * sizeof *working->at);
            return;
        }
    }
}

uint32_t suite_run(const Suite *suite, Words *result, Words *working, Report *report) {
    uint32_t number = suite_refusal(suite);
    if (number == 0) {
        Outcome *outcomes = suite_outcomes(suite, result->count, working->count);
        *report = report_of(suite, outcomes);
        leave_result(outcomes, suite->count, result);
        leave_working(outcomes, suite->count, working);
        outcomes_free(outcomes, suite->count);
    }
    return number;
}
