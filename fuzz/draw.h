// Random calls for the comparison: mostly small, of every shape, with areas of every size.
#ifndef DRAW_H
#define DRAW_H

#include "call.h"
#include "random.h"

enum { MOST_ROOM = 4096, MOST_WORK = 32768 };

// A random call. The words of the last result may come in again.
Call draw_call(Random *random, const Words *last);

#endif
