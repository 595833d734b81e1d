// Stored vectors of suites.
#ifndef SUITE_VECTORS_H
#define SUITE_VECTORS_H

#include "random.h"

// Writes a random suite, its answer, and what has become of all that was lent.
void put_random_suite(Random *random);

#endif
