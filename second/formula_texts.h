// Seeded texts, good and bad, with rooms for their results.
#ifndef FORMULA_TEXTS_H
#define FORMULA_TEXTS_H

#include "formula_call.h"
#include "random.h"

// A random call; the same for the same state of the source on every machine.
FormulaCall random_formula_call(Random *random);

// Damages a text at random places; it may still be a formula.
void damage_text(Random *random, Bytes *text);

// Prints a random call on a line.
void print_formula_call(Random *random);

#endif
