// Mode 2: the full step.
#ifndef FULL_H
#define FULL_H

#include "description.h"

enum { MOST_CHOICES = 4096 };

// The number of choices of a description, stopping at 4,097.
uint32_t count_choices(const Description *description);

// Marks as excluded alternatives that stand in no consistent choice, by looking ahead; false
// when there is no consistent choice at all.
bool look_ahead(Description *whole);

// Keeps the alternatives not excluded and folds every disjunction with one left.
Description keep_what_is_left(const Description *whole);

// Drops every alternative that stands in no consistent choice and folds; returns the number of
// consistent choices. When it is 0, nothing is to be freed.
uint32_t full(Description *whole, Description *result);

#endif
