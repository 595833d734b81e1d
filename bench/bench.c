// The benchmark: times the library beside the second program's engine, once both are seen to
// answer alike, and prints tables in Markdown.
//
// Usage: bench [--emulated] [--picture FILE] [--keep FOLDER] WORKLOAD...
// Exits with 1 where the answers differ, and with 2 where it cannot run.
#include "report.h"
#include "worst.h"

#include <stdio.h>
#include <string.h>

typedef struct {
    bool emulated;
    const char *picture; // where the scaling is drawn, or null
    const char *keep;    // the folder in which the worst inputs are kept, or null
} Options;

static int fail(const char *why, const char *what) {
    fprintf(stderr, "bench: %s %s\n", why, what);
    return 2;
}

// Reads the options; returns the index of the first argument after them.
static int read_options(int count, char **arguments, Options *options) {
    int index = 1;
    for (; index < count; index++) {
        if (strcmp(arguments[index], "--emulated") == 0) {
            options->emulated = true;
        } else if (strcmp(arguments[index], "--picture") == 0 && index + 1 < count) {
            options->picture = arguments[++index];
        } else if (strcmp(arguments[index], "--keep") == 0 && index + 1 < count) {
            options->keep = arguments[++index];
        } else {
            break;
        }
    }
    return index;
}

// Prints all tables, and writes what the options ask for.
static int report(const Suite *suite, const Options *options) {
    report_workloads(suite);
    if (!report_searches(suite)) {
        puts("The search does not come to the readings that were answered.");
        return 1;
    }
    report_scaling(suite);
    worst_print(suite_whole_time(suite), suite_empty_time(suite));
    if (options->picture != NULL && !draw_scaling(suite, options->picture, options->emulated)) {
        return fail("cannot write", options->picture);
    }
    if (options->keep != NULL && !worst_keep(options->keep)) {
        return fail("cannot write into", options->keep);
    }
    return 0;
}

int main(int count, char **arguments) {
    static Suite suite;
    Options options = {0};
    suite_start(&suite);
    for (int index = read_options(count, arguments, &options); index < count; index++) {
        if (!suite_read(&suite, arguments[index])) {
            return fail("cannot read", arguments[index]);
        }
    }
    if (!suite_complete(&suite)) {
        return fail("W1 and W2 are needed", "at all sizes");
    }
    if (!suite_check(&suite) || !worst_check()) {
        return 1;
    }
    puts("Both engines answer alike on all inputs.\n");
    suite_measure(&suite);
    return report(&suite, &options);
}
