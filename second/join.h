// Joining graphs, each time from scratch.
#ifndef JOIN_H
#define JOIN_H

#include "description.h"

// Whether the graphs can be joined; the list holds at least one graph.
bool graphs_agree(const Graph *const *graphs, size_t count);

// The joined graph, numbered by first arrival; false on a clash, and then nothing is to be freed.
bool graphs_join(const Graph *const *graphs, size_t count, Graph *joined);

// The same for two graphs.
bool graphs_join_two(const Graph *first, const Graph *second, Graph *joined);

// Folds an alternative, which is consumed, into a description: its graph is joined to the
// definite graph, and its disjunctions are added to the list. False when the graphs clash.
bool description_fold(Description *description, Description alternative);

// Puts what is left of a disjunction, which is consumed, into a description: one alternative is
// folded, two or more stay a disjunction. False when none is left, or when folding clashes.
bool description_settle(Description *description, Disjunction kept);

#endif
