// What document 01 says of a call, checked without regard to how the unifier works.
#ifndef PROPERTIES_H
#define PROPERTIES_H

#include "call.h"

// Makes the call, the same call in all modes, and fit tests; aborts where a property fails.
void check_call(const Call *call);

#endif
