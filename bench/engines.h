// The two engines that are timed, behind one way to call them.
#ifndef ENGINES_H
#define ENGINES_H

#include "bublastyr.h"
#include "call.h"

// The library, and the second program's own engine beside it.
typedef enum { LIBRARY, SECOND } Engine;
enum { ENGINE_COUNT = 2 };

// What a call gave; after number 0 the first `length` words of the result count. A fit test gives
// a number alone.
typedef struct {
    uint32_t number;
    uint32_t length;
    uint32_t readings;
    uint32_t node;
    uint32_t result[BUBLASTYR_LONGEST_RESULT];
} Answer;

void engine_run(Engine engine, const Call *call, Answer *answer);

// Whether both gave the same number, length, readings, node and words.
bool answers_alike(const Answer *one, const Answer *other);

#endif
