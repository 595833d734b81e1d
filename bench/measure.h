// Timing calls.
#ifndef MEASURE_H
#define MEASURE_H

#include "engines.h"

// The processor time of a call in nanoseconds: the least of many rounds, a round being as many
// calls as fill a few milliseconds. Long calls have fewer rounds.
double measure(Engine engine, const Call *call);

// The same for both engines, whose rounds take turns.
void measure_both(const Call *call, double time[ENGINE_COUNT]);

#endif
