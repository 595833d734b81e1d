// Mode 1: the quick step.
#ifndef TIDY_H
#define TIDY_H

#include "description.h"

// Tidies a description under the graph that says nothing; false when it fails, and then nothing
// is to be freed.
bool tidy_whole(const Description *description, Description *tidied);

#endif
