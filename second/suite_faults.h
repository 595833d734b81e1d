// Suites that are refused.
#ifndef SUITE_FAULTS_H
#define SUITE_FAULTS_H

#include "random.h"
#include "suite.h"

// Puts faults into one suite of three: too many tests, words beyond the area, modes and numbers that
// are unknown, and several of these.
void perhaps_spoil_suite(Random *random, Suite *suite);

#endif
