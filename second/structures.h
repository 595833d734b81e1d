// All small structures.
#ifndef STRUCTURES_H
#define STRUCTURES_H

#include "brute.h"

enum { STRUCTURE_NODES = 3, STRUCTURE_FEATURE = 1, STRUCTURE_ATOM = 10 };

typedef struct {
    Sheet *sheets;
    size_t count;
} Structures;

// All structures of up to three nodes over the features 1 and 2 and the atoms 10 and 11, cycles
// included, all nodes reached, each numbered by first arrival; small ones first.
Structures all_structures(void);
void structures_free(Structures *structures);

#endif
