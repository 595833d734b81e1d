// The self-check of suites: a suite is held to its tests one by one, to its parts, and to the same
// suite with other expectations.
#include "suite_check.h"

#include "check.h"
#include "lent.h"
#include "suite_shapes.h"

#include <inttypes.h>
#include <stdio.h>
#include <string.h>

void suite_demand(SuiteCheck *check, bool holds, const char *failure) {
    if (!holds && check->failure == NULL) {
        check->failure = failure;
    }
}

static uint32_t run(const Suite *suite, Lent *lent) {
    return suite_run(suite, &lent->result, &lent->working, &lent->report);
}

static bool same_area(const Words *left, const Words *right) {
    return left->count == right->count &&
           (left->count == 0 || memcmp(left->at, right->at, left->count * sizeof *left->at) == 0);
}

static bool same_areas(const Lent *left, const Lent *right) {
    return same_area(&left->result, &right->result) && same_area(&left->working, &right->working);
}

static bool same_report(const Report *left, const Report *right) {
    return memcmp(left, right, sizeof *left) == 0;
}

// A part of a suite, which owns nothing.
static Suite part_of(const Suite *suite, size_t from, size_t to) {
    Suite part = *suite;
    part.tests = suite->tests == NULL ? NULL : suite->tests + from;
    part.count = to - from;
    return part;
}

// The record at fault is the last of a part that is refused alike, and all before it are in order.
static void check_refusal(SuiteCheck *check, const SuiteCall *call, uint32_t answer) {
    const Suite *suite = &call->suite;
    Lent lent = lent_before(call->room, call->work);
    Lent before = lent_before(call->room, call->work);
    run(suite, &lent);
    suite_demand(check, same_areas(&lent, &before), "a refusal changes an area");
    suite_demand(check, same_report(&lent.report, &before.report), "a refusal changes the report");
    suite_demand(check, (answer == SUITE_LONG) == (suite->count > 64), "30 at the wrong time");
    size_t count = 0;
    Suite part = part_of(suite, 0, 0);
    while (answer != SUITE_LONG && count < suite->count && suite_refusal(&part) == 0) {
        part = part_of(suite, 0, ++count);
    }
    if (answer != SUITE_LONG) {
        Suite alone = part_of(suite, count - 1, count);
        const Test *test = alone.tests;
        uint64_t first = (uint64_t)test->first.start + test->first.words;
        uint64_t second = (uint64_t)test->second.start + test->second.words;
        bool beyond = first > suite->words.count || second > suite->words.count;
        suite_demand(check, suite_refusal(&part) == answer, "a later fault is told");
        suite_demand(check, suite_refusal(&alone) == answer, "a fault depends on other tests");
        suite_demand(check, answer == (beyond ? 31 : 32), "31 does not come before 32");
        suite_demand(check, beyond || test->mode > 2 || test->number > 11, "32 without a fault");
    }
    lent_free(&before);
    lent_free(&lent);
}

static uint32_t sum_of(const Report *report) {
    uint32_t sum = 0;
    for (uint32_t cell = 0; cell < MODES * NUMBERS; cell++) {
        sum += report->counts[cell / NUMBERS][cell % NUMBERS];
    }
    return sum;
}

// What stands in the areas by one call after another, and how the report follows from the calls.
static void check_calls(SuiteCheck *check, const SuiteCall *call, const Lent *lent) {
    const Report *report = &lent->report;
    Lent other = lent_before(call->room, call->work);
    uint32_t good = 0;
    uint32_t first = MOST_TESTS;
    Report counted = {0};
    for (uint32_t index = 0; index < call->suite.count; index++) {
        Suite alone = part_of(&call->suite, index, index + 1);
        const Test *test = alone.tests;
        Outcome *outcome = suite_outcomes(&alone, call->room, call->work);
        bool expected = outcome->number == test->number && outcome->readings == test->readings;
        counted.counts[test->mode][outcome->number]++;
        suite_demand(check, run(&alone, &other) == 0, "a test by itself is refused");
        suite_demand(check, other.report.good == expected, "a test counts otherwise by itself");
        good += expected;
        first = !expected && first == MOST_TESTS ? index : first;
        outcomes_free(outcome, 1);
    }
    suite_demand(check, report->good == good, "good is not the number of tests as expected");
    suite_demand(check, report->first == first, "first is not the first unexpected test");
    suite_demand(check, memcmp(counted.counts, report->counts, sizeof counted.counts) == 0,
                 "the counts are not those of the calls");
    suite_demand(check, same_areas(lent, &other), "the areas are not as the calls leave them");
    lent_free(&other);
}

// The first tests and then the others, with the same areas, come to the whole.
static void check_parts(SuiteCheck *check, const SuiteCall *call, const Lent *lent) {
    size_t count = call->suite.count;
    size_t cut = random_below(&check->random, (uint32_t)count + 1);
    Suite left = part_of(&call->suite, 0, cut);
    Suite right = part_of(&call->suite, cut, count);
    Lent other = lent_before(call->room, call->work);
    run(&left, &other);
    Report sum = other.report;
    run(&right, &other);
    sum.run += other.report.run;
    sum.good += other.report.good;
    if (sum.first == MOST_TESTS && other.report.first < MOST_TESTS) {
        sum.first = (uint32_t)cut + other.report.first;
    }
    for (uint32_t cell = 0; cell < MODES * NUMBERS; cell++) {
        sum.counts[cell / NUMBERS][cell % NUMBERS] +=
            other.report.counts[cell / NUMBERS][cell % NUMBERS];
    }
    suite_demand(check, same_report(&sum, &lent->report), "two parts report otherwise");
    suite_demand(check, same_areas(&other, lent), "two parts leave other areas");
    lent_free(&other);
}

// When what comes is expected all tests are good, and with one expected otherwise that is the
// first; nothing else changes. The expectations of the suite are lost.
static void check_expectations(SuiteCheck *check, const SuiteCall *call, const Lent *lent) {
    const Suite *suite = &call->suite;
    Outcome *outcomes = suite_outcomes(suite, call->room, call->work);
    uint32_t count = (uint32_t)suite->count;
    for (uint32_t index = 0; index < count; index++) {
        suite->tests[index].number = outcomes[index].number;
        suite->tests[index].readings = outcomes[index].readings;
    }
    outcomes_free(outcomes, count);
    Lent other = lent_before(call->room, call->work);
    Report expected = lent->report;
    expected.good = count;
    expected.first = MOST_TESTS;
    run(suite, &other);
    suite_demand(check, same_report(&other.report, &expected), "what came is not as expected");
    if (count > 0) {
        expected.good = count - 1;
        expected.first = random_below(&check->random, count);
        expect_otherwise(&check->random, &suite->tests[expected.first]);
        run(suite, &other);
        suite_demand(check, same_report(&other.report, &expected), "one unexpected test is missed");
    }
    suite_demand(check, same_areas(&other, lent), "expectations change the areas");
    lent_free(&other);
}

static void check_suite(SuiteCheck *check) {
    SuiteCall call = random_suite_call(&check->random);
    Lent lent = lent_before(call.room, call.work);
    uint32_t answer = run(&call.suite, &lent);
    suite_demand(check, answer == 0 || (answer >= 30 && answer <= 32), "an unknown answer");
    if (answer == 0) {
        suite_demand(check, sum_of(&lent.report) == lent.report.run, "the counts do not add up");
        suite_demand(check, lent.report.run == call.suite.count, "not all tests were run");
        check->run += lent.report.run;
        check->good += lent.report.good;
        check_calls(check, &call, &lent);
        check_parts(check, &call, &lent);
        check_expectations(check, &call, &lent);
    } else {
        check->refused[answer - SUITE_LONG]++;
        check_refusal(check, &call, answer);
    }
    lent_free(&lent);
    suite_free(&call.suite);
}

int run_check_suites(uint64_t seed, uint64_t count) {
    SuiteCheck check = {.random = {seed}};
    for (uint64_t done = 0; done < count && check.failure == NULL; done++) {
        check_suite(&check);
        check_suite_text(&check);
    }
    printf("self-check seed %" PRIu64 ": %" PRIu64 " suites, %" PRIu64 " tests run, %" PRIu64
           " as expected; suites refused by 30, 31, 32: %" PRIu64 " %" PRIu64 " %" PRIu64
           "; %" PRIu64 " good texts, %" PRIu64 " bad\n",
           seed, count, check.run, check.good, check.refused[0], check.refused[1], check.refused[2],
           check.texts, check.bad);
    if (check.failure != NULL) {
        printf("difference: %s\n", check.failure);
    }
    return check.failure == NULL ? 0 : 1;
}
