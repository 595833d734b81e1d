// Where two graphs clash (request Six).
#ifndef CLASH_NODE_H
#define CLASH_NODE_H

#include "description.h"

// Whether two graphs clash, and then the smallest node whose class holds a clash once all classes
// are complete; the nodes of the second graph are counted after those of the first. Without a
// clash the node is 0.
bool clash_node(const Graph *first, const Graph *second, uint32_t *node);

// The nodes of the class of a node, counted alike, by rising number.
Words class_members(const Graph *first, const Graph *second, uint32_t node);

#endif
