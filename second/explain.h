// Saying in sentences what came of a call, and what is malformed; docs/EXPLAIN.md has the
// sentences.
#ifndef EXPLAIN_H
#define EXPLAIN_H

#include "random.h"

// One call of `meet` from standard input, and sentences about it.
int run_explain(void);

// One call of `meet` from standard input, its answer, and the numbers that the sentences are made
// of.
int run_told(void);

// One run of words a line from standard input, one cause a line.
int run_causes(void);

// Prints an input of `meet` on a line; it is mostly malformed.
void print_broken(Random *random);

// Prints an input of `meet` on a line, which clashes: half of the time by 6, often at a node of the
// second input, else by 10 or 11.
void print_clashing(Random *random);

#endif
