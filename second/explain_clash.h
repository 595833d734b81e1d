// Saying where two definite graphs clash; docs/EXPLAIN.md has the sentence.
#ifndef EXPLAIN_CLASH_H
#define EXPLAIN_CLASH_H

#include "description.h"

// The node, counted over both graphs, at which they clash: which it is of its input, the path to it,
// and what meets there.
void say_where(const Graph *first, const Graph *second, uint32_t node);

#endif
