// Counting the nodes of mode 2's search.
#ifndef NODES_H
#define NODES_H

#include "call.h"

typedef struct {
    uint32_t nodes;
    uint32_t readings; // the consistent choices that the search came to
} Search;

// The search of a call, as if its mode were 2. Both counts are 0 where there is no search: the
// quick step fails, or leaves over 4,096 choices.
Search count_search(const Call *call);

#endif
