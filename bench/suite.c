// The workloads of a run.
#include "suite.h"

#include "measure.h"

#include <stdio.h>
#include <string.h>

static const char *const SCALED_NAMES[SCALED] = {"W1_join", "W2_quick"};
static const char *const SIZE_NAMES[SIZES] = {"8th", "4th", "half", "full"};

void suite_start(Suite *suite) {
    static const uint32_t nothing[] = {1, 0, 0};
    workload_start(&suite->workloads[0], "empty", MODE_JOIN);
    words_add_all(&suite->workloads[0].call.first, nothing, 3);
    words_add_all(&suite->workloads[0].call.second, nothing, 3);
    suite->count = 1;
}

bool suite_read(Suite *suite, const char *path) {
    return suite->count < MOST_WORKLOADS && workload_read(&suite->workloads[suite->count++], path);
}

// The workload with a name, or null.
static const Workload *find(const Suite *suite, const char *name) {
    for (size_t index = 0; index < suite->count; index++) {
        if (strcmp(suite->workloads[index].name, name) == 0) {
            return &suite->workloads[index];
        }
    }
    return NULL;
}

const Workload *suite_scaled(const Suite *suite, size_t scaled, size_t size) {
    char name[LONGEST_NAME];
    snprintf(name, sizeof name, "%s_%s", SCALED_NAMES[scaled], SIZE_NAMES[size]);
    return find(suite, name);
}

bool suite_complete(const Suite *suite) {
    bool complete = true;
    for (size_t index = 0; index < SCALED * SIZES; index++) {
        complete = complete && suite_scaled(suite, index / SIZES, index % SIZES) != NULL;
    }
    return complete;
}

bool suite_check(Suite *suite) {
    bool alike = true;
    for (size_t index = 0; alike && index < suite->count; index++) {
        alike = workload_check(&suite->workloads[index]);
    }
    return alike;
}

void suite_measure(Suite *suite) {
    for (size_t index = 0; index < suite->count; index++) {
        measure_both(&suite->workloads[index].call, suite->workloads[index].time);
    }
}

double suite_empty_time(const Suite *suite) {
    return suite->workloads[0].time[LIBRARY];
}

double suite_whole_time(const Suite *suite) {
    return suite_scaled(suite, SCALED - 1, SIZES - 1)->time[LIBRARY];
}

bool suite_smaller(const Suite *suite, const Workload *workload) {
    bool smaller = false;
    for (size_t index = 0; index < SCALED * (SIZES - 1); index++) {
        smaller |= workload == suite_scaled(suite, index / (SIZES - 1), index % (SIZES - 1));
    }
    return smaller;
}
