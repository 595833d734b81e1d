// Parts that inputs made to be slow are put together from.
#ifndef ADVERSE_PARTS_H
#define ADVERSE_PARTS_H

#include "adverse.h"

enum {
    ATOM = FEATURE_END + 1, // a head that is an atom
    LAST = FEATURE_END - 1  // the last feature: all other arcs of a node come before it
};

// Adds a graph: a cycle of so many nodes under one feature, through the root. 3 words a node.
void add_cycle(Words *words, uint32_t nodes, uint32_t feature);

// Adds a node: so many arcs, all to one target, their features rising by steps from the first.
void add_fan(Words *words, uint32_t arcs, uint32_t feature, uint32_t step, uint32_t target);

#endif
