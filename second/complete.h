// Going on from words to a whole description.
#ifndef COMPLETE_H
#define COMPLETE_H

#include "description.h"

typedef enum {
    COMPLETED,
    STUCK,   // a node cannot be met any more, or the features of a node have run out
    TOO_LONG // over the limit of words
} Completion;

// Goes through words as through those of a description, whatever they are, and adds what is missing
// so that it ends soon; words after its end stay. With `most` words it gives up. What was made is
// freed by the caller.
Completion complete(const Words *given, size_t most, Words *whole);

#endif
