// Seeded calls, and stored vectors of their answers.
#ifndef GENERATE_H
#define GENERATE_H

#include "call.h"
#include "random.h"

// A random call; the same for the same state of the source on every machine.
Call random_call(Random *random);

// A random call of the fit test, its structure now and then with the disjunctions that it must not have.
Call random_fit(Random *random);

// Prints a random call in the batch format.
void print_call(Random *random);

// Writes so many stored vectors of the kind `calls`, `fits`, `reading`, `faults`, `joins`, `nodes`,
// `formula`, `suites`, `libraries` or `changes`; false for another kind.
bool put_vectors(uint64_t seed, uint64_t count, const char *kind);

// Writes what ends stored vectors.
void end_vectors(void);

#endif
