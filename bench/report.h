// What is told of a suite once it is timed.
#ifndef REPORT_H
#define REPORT_H

#include "suite.h"

// Prints the workloads, but for the smaller sizes.
void report_workloads(const Suite *suite);

// Prints the searches of mode 2; false where the count of nodes comes to other readings.
bool report_searches(const Suite *suite);

// Prints how time grows with words.
void report_scaling(const Suite *suite);

// Draws that into a file; false where it cannot be written.
bool draw_scaling(const Suite *suite, const char *path, bool emulated);

#endif
