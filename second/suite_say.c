// What came of a suite, in lines.
#include "suite_text.h"

#include "hexadecimal.h"

#include <inttypes.h>
#include <stdio.h>

// Tests by what came of them.
typedef struct {
    uint32_t good;
    uint32_t otherwise;
    uint32_t not_run;
} Verdicts;

// Whether a call decided anything: it unified, or came to a clash.
static bool decides(const Outcome *outcome) {
    return outcome->number == SUCCESS || is_clash(outcome->number);
}

// The name of a test, else its number from 1.
static void say_name(const Bytes *name, size_t index) {
    if (name->count == 0) {
        printf("test %zu", index + 1);
    } else {
        fwrite(name->at, 1, name->count, stdout);
    }
    fputs(": ", stdout);
}

static void say_expected(const Test *test) {
    printf("expected number %" PRIu32 " readings %" PRIu32, test->number, test->readings);
}

static void say_good(const Bytes *name, size_t index, const Outcome *outcome) {
    if (!decides(outcome)) {
        say_name(name, index);
        printf("refused with number %" PRIu32 ", as expected\n", outcome->number);
    }
}

static void say_otherwise(const Test *test, const Outcome *outcome) {
    say_expected(test);
    printf(", came number %" PRIu32 " readings %" PRIu32 "\n", outcome->number, outcome->readings);
}

static void say_not_run(const Test *test, const Outcome *outcome) {
    printf("not run, number %" PRIu32 "; ", outcome->number);
    say_expected(test);
    putchar('\n');
}

// The line of a test, if it has one, and its verdict.
static void say_test(const NamedSuite *named, size_t index, const Outcome *outcome,
                     Verdicts *verdicts) {
    const Test *test = &named->suite.tests[index];
    const Bytes *name = &named->names[index];
    if (as_expected(test, outcome)) {
        verdicts->good++;
        say_good(name, index, outcome);
        return;
    }
    say_name(name, index);
    if (decides(outcome)) {
        verdicts->otherwise++;
        say_otherwise(test, outcome);
    } else {
        verdicts->not_run++;
        say_not_run(test, outcome);
    }
}

static void say_counts(const Report *report) {
    for (int mode = 0; mode < MODES; mode++) {
        printf("mode %d:", mode);
        for (int number = 0; number < NUMBERS; number++) {
            printf(" %" PRIu32, report->counts[mode][number]);
        }
        putchar('\n');
    }
}

// The lines of the tests, the table and the last line.
static void say_outcomes(const NamedSuite *named, const Outcome *outcomes) {
    Report report = report_of(&named->suite, outcomes);
    Verdicts verdicts = {0};
    for (size_t index = 0; index < named->suite.count; index++) {
        say_test(named, index, &outcomes[index], &verdicts);
    }
    say_counts(&report);
    printf("%" PRIu32 " as expected, %" PRIu32 " not, %" PRIu32 " not run\n", verdicts.good,
           verdicts.otherwise, verdicts.not_run);
}

static void say_suite(const NamedSuite *named) {
    uint32_t refusal = suite_refusal(&named->suite);
    if (refusal != 0) {
        printf("answer %" PRIu32 "\n", refusal);
        return;
    }
    Outcome *outcomes = suite_outcomes(&named->suite, SUITE_ROOM, WORKING_NEEDED);
    say_outcomes(named, outcomes);
    outcomes_free(outcomes, named->suite.count);
}

// Runs the suite of a text, and prints what came of it.
static void answer(const char *text, size_t length) {
    NamedSuite named;
    if (suite_parse(text, length, &named)) {
        say_suite(&named);
    } else {
        puts("bad input");
    }
    named_suite_free(&named);
}

// Standard input is read to its end, so that nobody who still writes is cut off; but no more is kept
// than shows that a text is too long.
int run_suite(void) {
    static char text[LONGEST_SUITE_TEXT + 1];
    size_t length = fread(text, 1, sizeof text, stdin);
    while (getchar() != EOF) {
    }
    answer(text, length);
    return 0;
}

int run_suite_file(const char *path) {
    if (freopen(path, "rb", stdin) == NULL) {
        fprintf(stderr, "second: %s cannot be read\n", path);
        return 2;
    }
    return run_suite();
}

int run_suites(void) {
    Bytes line = {0};
    while (line_next(&line)) {
        Bytes text = {0};
        if (parse_hexadecimal(line.at, &text)) {
            answer(text.at, text.count);
        } else {
            puts("bad input");
        }
        putchar('\n');
        bytes_free(&text);
    }
    bytes_free(&line);
    return 0;
}
