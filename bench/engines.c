// Calling the library and the second program's engine.
#include "engines.h"

#include <string.h>

static void run_library(const Call *call, Answer *answer) {
    static uint32_t working[BUBLASTYR_WORKING];
    const Words *first = &call->first;
    const Words *second = &call->second;
    uint32_t told[3] = {0, 0, 0};
    if (call->is_fit) {
        answer->number = bublastyr_fit(first->at, first->count, second->at, second->count);
    } else {
        answer->number =
            bublastyr_unify(call->mode, first->at, first->count, second->at, second->count,
                            answer->result, call->room, working, call->work, told);
    }
    answer->length = told[0];
    answer->readings = told[1];
    answer->node = told[2];
}

// The second program makes its own memory; its result is copied out.
static void run_second(const Call *call, Answer *answer) {
    Outcome outcome = call_run(call);
    answer->number = outcome.number;
    answer->length = outcome.length;
    answer->readings = outcome.readings;
    answer->node = outcome.node;
    if (outcome.result.count > 0) {
        memcpy(answer->result, outcome.result.at, outcome.result.count * sizeof(uint32_t));
    }
    words_free(&outcome.result);
}

void engine_run(Engine engine, const Call *call, Answer *answer) {
    if (engine == LIBRARY) {
        run_library(call, answer);
    } else {
        run_second(call, answer);
    }
}

bool answers_alike(const Answer *one, const Answer *other) {
    if (one->number != other->number || one->length != other->length ||
        one->readings != other->readings || one->node != other->node) {
        return false;
    }
    return one->number != SUCCESS ||
           memcmp(one->result, other->result, one->length * sizeof(uint32_t)) == 0;
}
