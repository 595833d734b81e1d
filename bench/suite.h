// The workloads of a run, and what is found in them by name.
#ifndef SUITE_H
#define SUITE_H

#include "workload.h"

enum { MOST_WORKLOADS = 64, SCALED = 2, SIZES = 4 };

// The empty call comes first, then the workloads that were read.
typedef struct {
    size_t count;
    Workload workloads[MOST_WORKLOADS];
} Suite;

// Starts a suite with the empty call: both descriptions say nothing, in mode 0.
void suite_start(Suite *suite);

// Reads one workload more; false where that fails.
bool suite_read(Suite *suite, const char *path);

// Whether all workloads are there that are looked for below.
bool suite_complete(const Suite *suite);

// Runs both engines on all workloads; false where they differ.
bool suite_check(Suite *suite);

// Times both engines on all workloads.
void suite_measure(Suite *suite);

// A workload that comes in sizes, W1 or W2, from the smallest to the whole.
const Workload *suite_scaled(const Suite *suite, size_t scaled, size_t size);

// The time of the library on the empty call, and on W2 whole.
double suite_empty_time(const Suite *suite);
double suite_whole_time(const Suite *suite);

// Whether a workload is one of the smaller sizes.
bool suite_smaller(const Suite *suite, const Workload *workload);

#endif
