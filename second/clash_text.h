// Pairs of definite descriptions as words and as lines.
#ifndef CLASH_TEXT_H
#define CLASH_TEXT_H

#include "shapes.h"

// Reads two descriptions; false when one of them is malformed or has disjunctions, and then nothing
// is left to free.
bool definite_read(const Words *first, const Words *second, Pair *pair);

// One pair of definite descriptions a line from standard input, where they clash on a line each.
int run_nodes(void);

#endif
