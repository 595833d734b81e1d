// Known suites: every refusal and its order, what counts as expected, and both areas afterwards.
#include "check.h"

#include "call.h"
#include "known.h"
#include "lent.h"

#include <inttypes.h>
#include <string.h>

// The word area of the cases: N at 0, A at 3, B at 9, P at 15, feature 1 is atom 12 at 31, atom 12 or
// atom 13 at 37, E at 53; it ends at 61.
#define AREA N A B P TWELVE TWELVE_OR_THIRTEEN E

// Tests with what comes of them, which is expected: records of seven words.
#define NOTHING "0 0 0 0 3 0 3 "
#define A_B "1 6 0 3 6 9 6 "
#define P_P "2 0 2 15 16 15 16 "
#define P_A "0 0 0 15 16 3 6 "
#define P_TWELVE "1 10 0 15 16 31 6 "
#define P_OTHERS "2 11 0 15 16 37 16 "
#define EMPTY_FIRST "2 4 0 61 0 0 3 "

#define P_P_WORDS "1 0 2 2 " A B "2 " A B
#define P_A_WORDS "2 1 1 1 65546 1 2 " A B

typedef struct {
    const char *name;
    const char *tests;
    uint32_t room;
    uint32_t work;
    uint32_t answer;
    const char *report; // run, good, first, then mode, number and count of each count but 0
    const char *result; // the words that are written
    bool cleared;       // the working area
} KnownSuite;

static const KnownSuite cases[] = {
    {"empty", "", 40, 16384, 0, "0 0 64", "", false},
    {"empty without areas", "", 0, 0, 0, "0 0 64", "", false},
    {"one good", NOTHING, 40, 16384, 0, "1 1 64 0 0 1", N, true},
    {"a clash is good", A_B, 40, 16384, 0, "1 1 64 1 6 1", "", true},
    {"10 is good", P_TWELVE, 40, 16384, 0, "1 1 64 1 10 1", "", true},
    {"11 is good", P_OTHERS, 40, 16384, 0, "1 1 64 2 11 1", "", true},
    {"10 is not 6", "1 6 0 15 16 31 6", 40, 16384, 0, "1 0 0 1 10 1", "", true},
    {"11 is not 6", "2 6 0 15 16 37 16", 40, 16384, 0, "1 0 0 2 11 1", "", true},
    {"9 comes of no test", "0 9 0 0 3 0 3", 40, 16384, 0, "1 0 0 0 0 1", N, true},
    {"readings good", P_P, 40, 16384, 0, "1 1 64 2 0 1", P_P_WORDS, true},
    {"readings wrong", "2 0 3 15 16 15 16", 40, 16384, 0, "1 0 0 2 0 1", P_P_WORDS, true},
    {"number wrong", "0 6 0 0 3 0 3", 40, 16384, 0, "1 0 0 0 0 1", N, true},
    {"both wrong", "0 6 4294967295 0 3 0 3", 40, 16384, 0, "1 0 0 0 0 1", N, true},
    {"refused with readings", "2 4 1 61 0 0 3", 40, 16384, 0, "1 0 0 2 4 1", "", false},
    {"second of three wrong", NOTHING "1 0 0 3 6 9 6 " NOTHING, 40, 16384, 0, "3 2 1 0 0 2 1 6 1",
     N, true},
    {"second and third wrong", NOTHING "1 0 0 3 6 9 6 0 8 0 0 3 0 3", 40, 16384, 0,
     "3 1 1 0 0 2 1 6 1", N, true},
    {"last of three wrong", NOTHING A_B "2 6 0 0 3 0 3", 40, 16384, 0, "3 2 2 0 0 1 1 6 1 2 0 1", N,
     true},
    {"every place of the table", NOTHING A_B P_P EMPTY_FIRST P_A, 40, 16384, 0,
     "5 5 64 0 0 2 1 6 1 2 0 1 2 4 1", P_A_WORDS "1 1 65546 0 " B, true},
    {"a short result over a long one", P_P NOTHING, 40, 16384, 0, "2 2 64 0 0 1 2 0 1",
     N "2 " A B "2 " A B, true},
    {"nothing over a result", NOTHING EMPTY_FIRST A_B, 40, 16384, 0, "3 3 64 0 0 1 1 6 1 2 4 1", N,
     true},
    {"result exact", P_A, 19, 16384, 0, "1 1 64 0 0 1", P_A_WORDS, true},
    {"result a word short", P_A, 18, 16384, 0, "1 0 0 0 8 1", "", true},
    {"no room is good", "0 8 0 15 16 3 6", 18, 20000, 0, "1 1 64 0 8 1", "", true},
    {"working area small", NOTHING "0 2 0 0 3 0 3", 40, 16383, 0, "2 1 0 0 2 2", "", false},
    {"malformed leaves the areas", EMPTY_FIRST "0 5 0 0 3 61 0", 40, 16384, 0, "2 2 64 0 5 1 2 4 1",
     "", false},
    {"at the end", "0 5 0 0 3 60 1", 40, 16384, 0, "1 1 64 0 5 1", "", false},
    {"the last description", "0 0 0 53 8 0 3", 40, 16384, 0, "1 1 64 0 0 1", E, true},
    {"the whole area", "0 4 0 0 61 0 61", 40, 16384, 0, "1 1 64 0 4 1", "", false},
    {"greatest mode and number", "2 11 0 0 3 0 3", 40, 16384, 0, "1 0 0 2 0 1", N, true},
    {"a word beyond", "0 0 0 53 9 0 3", 40, 16384, 31, "", "", false},
    {"a word beyond, second", "0 0 0 0 3 61 1", 40, 16384, 31, "", "", false},
    {"no words beyond", "0 0 0 62 0 0 3", 40, 16384, 31, "", "", false},
    {"sum of 32 bits is 0", "0 0 0 4294967295 1 0 3", 40, 16384, 31, "", "", false},
    {"sum of 32 bits is small", "0 0 0 0 3 4294967290 9", 40, 16384, 31, "", "", false},
    {"most words", "0 0 0 1 4294967295 0 3", 40, 16384, 31, "", "", false},
    {"mode above 2", "3 0 0 0 3 0 3", 40, 16384, 32, "", "", false},
    {"number above 11", "0 12 0 0 3 0 3", 40, 16384, 32, "", "", false},
    {"32 before 31", "3 0 0 0 3 0 3 0 0 0 62 0 0 3", 40, 16384, 32, "", "", false},
    {"31 before 32", "0 0 0 62 0 0 3 3 0 0 0 3 0 3", 40, 16384, 31, "", "", false},
    {"31 and 32 in one", NOTHING "3 0 0 62 0 0 3", 40, 16384, 31, "", "", false},
    {"31 in the second place and 32", "0 12 0 0 3 62 0", 40, 16384, 31, "", "", false},
    {"the last is at fault", NOTHING P_P "0 12 0 0 3 0 3", 40, 16384, 32, "", "", false},
    {"32 with a small working area", "3 0 0 0 3 0 3", 0, 0, 32, "", "", false},
};

enum { CASES = sizeof cases / sizeof *cases };

static Suite suite_from(const char *tests) {
    Suite suite = {.words = words_from(AREA)};
    Words words = words_from(tests);
    for (size_t index = 0; index + 7 <= words.count; index += 7) {
        const uint32_t *at = words.at + index;
        suite_add(&suite, (Test){at[0], at[1], at[2], {at[3], at[4]}, {at[5], at[6]}});
    }
    words_free(&words);
    return suite;
}

// The words of the report that a case names; those of a report as it came after a refusal.
static Words expected_report(const KnownSuite *known) {
    Lent before = lent_before(0, 0);
    Words words = words_from(known->report);
    if (known->answer == 0) {
        before.report = (Report){words.at[0], words.at[1], words.at[2], {{0}}};
        for (size_t index = 3; index < words.count; index += 3) {
            before.report.counts[words.at[index]][words.at[index + 1]] = words.at[index + 2];
        }
    }
    words_free(&words);
    lent_free(&before);
    return report_words(&before.report);
}

static bool same_words(const uint32_t *left, size_t count, const Words *right) {
    return count == right->count && (count == 0 || memcmp(left, right->at, 4 * count) == 0);
}

static bool lent_as_expected(const KnownSuite *known, const Lent *lent) {
    Words report = report_words(&lent->report);
    Words expected = expected_report(known);
    Words result = words_from(known->result);
    bool same = same_words(report.at, report.count, &expected) &&
                same_words(lent->result.at, words_changed(&lent->result), &result) &&
                (known->cleared ? is_cleared(&lent->working) : words_changed(&lent->working) == 0);
    words_free(&result);
    words_free(&expected);
    words_free(&report);
    return same;
}

static bool known_holds(const KnownSuite *known) {
    Suite suite = suite_from(known->tests);
    Lent lent = lent_before(known->room, known->work);
    uint32_t answer = suite_run(&suite, &lent.result, &lent.working, &lent.report);
    bool same = answer == known->answer && lent_as_expected(known, &lent);
    if (!same) {
        printf("known suite %s: answer %" PRIu32 " run %" PRIu32 " good %" PRIu32 " first %" PRIu32
               "\n",
               known->name, answer, lent.report.run, lent.report.good, lent.report.first);
    }
    lent_free(&lent);
    suite_free(&suite);
    return same;
}

// So many times the test that is good, then the tests: the answer, and what is good and first.
static bool many_hold(size_t count, const char *tests, uint32_t answer, uint32_t good,
                      uint32_t first) {
    Suite suite = suite_from(NOTHING);
    Suite after = suite_from(tests);
    while (suite.count < count) {
        suite_add(&suite, suite.tests[0]);
    }
    for (size_t index = 0; index < after.count; index++) {
        suite_add(&suite, after.tests[index]);
    }
    Lent lent = lent_before(40, WORKING_NEEDED);
    Report expected = lent.report;
    if (answer == 0) {
        expected = (Report){.run = (uint32_t)suite.count, .good = good, .first = first};
        expected.counts[MODE_JOIN][SUCCESS] = (uint32_t)suite.count;
    }
    bool same = suite_run(&suite, &lent.result, &lent.working, &lent.report) == answer &&
                memcmp(&lent.report, &expected, sizeof expected) == 0;
    if (!same) {
        printf("known suite of %zu tests differs\n", suite.count);
    }
    lent_free(&lent);
    suite_free(&after);
    suite_free(&suite);
    return same;
}

int run_known_suites(void) {
    bool all = true;
    for (size_t index = 0; index < CASES; index++) {
        all &= known_holds(&cases[index]);
    }
    all &= many_hold(64, "", 0, 64, 64);
    all &= many_hold(63, "0 6 0 0 3 0 3", 0, 63, 63);
    all &= many_hold(65, "", 30, 0, 0);
    all &= many_hold(64, "0 12 0 62 0 0 3", 30, 0, 0);
    all &= many_hold(63, "0 12 0 0 3 0 3 0 0 0 62 0 0 3", 30, 0, 0);
    all &= many_hold(63, "0 12 0 0 3 0 3", 32, 0, 0);
    all &= many_hold(1000, "", 30, 0, 0);
    printf("known: %d suites and 7 long ones: %s\n", (int)CASES,
           all ? "as requests Five and Six say" : "DIFFERENT");
    return all ? 0 : 1;
}
