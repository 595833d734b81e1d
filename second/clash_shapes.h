// Random pairs of graphs that clash at nodes of every number.
#ifndef CLASH_SHAPES_H
#define CLASH_SHAPES_H

#include "shapes.h"

// Two definite descriptions of at most 40 nodes each; over a third of them clash.
Pair random_definite_pair(Random *random);

#endif
