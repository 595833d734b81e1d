// The demands on the node at which two graphs clash.
#ifndef CLASH_CHECK_H
#define CLASH_CHECK_H

#include "brute.h"
#include "random.h"
#include "shapes.h"

// What the check works with, and what it has counted.
typedef struct {
    Random random;
    Sheet sheet;
    const char *failure; // what went wrong first, or null
    uint64_t agreeing;
    uint64_t clashing;
    uint64_t in_second; // clashes at a node of the second graph
} NodeCheck;

// Holds the node to whether the graphs can be joined, and to classes that are found in another way;
// prints a pair of which it does not hold.
void check_node(NodeCheck *check, const Pair *pair);

// The smallest node at which the definite graphs in the words of two descriptions clash, by those
// classes; UINT32_MAX when they do not.
uint32_t merged_node(Sheet *sheet, const Words *first, const Words *second);

#endif
