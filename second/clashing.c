// Seeded inputs of `meet` that clash: half of them by 6, at nodes of both inputs, the others by 10 and by
// 11. Calls are drawn until one clashes so.
#include "explain.h"

#include "call.h"
#include "clash_shapes.h"

enum { MEET_ROOM = 2048 };

static Words words_of(const Description *description) {
    Words words = {0};
    description_write(description, &words);
    return words;
}

// Adds copies of the disjunctions of another description.
static void add_disjunctions(Description *description, const Description *from) {
    for (uint32_t index = 0; index < from->disjunction_count; index++) {
        description_add(description, disjunction_copy(&from->disjunctions[index]));
    }
}

// Graphs that clash at nodes of every number, with disjunctions that do not matter.
static Pair random_clashing_graphs(Random *random) {
    Pair pair = random_definite_pair(random);
    Pair more = random_pair(random);
    add_disjunctions(&pair.first, &more.first);
    add_disjunctions(&pair.second, &more.second);
    pair_free(&more);
    return pair;
}

static Call random_call_for(Random *random, uint32_t number) {
    bool graphs = number == CLASH && random_below(random, 4) > 0;
    Pair pair = graphs ? random_clashing_graphs(random) : random_pair(random);
    Call call = {.room = MEET_ROOM, .work = WORKING_NEEDED};
    call.mode = number == NO_CHOICE ? MODE_FULL : random_below(random, 3);
    call.first = words_of(&pair.first);
    call.second = words_of(&pair.second);
    pair_free(&pair);
    return call;
}

// Whether a call clashes by the number and, if that is asked for, at a node of the second input.
static bool clashes_so(const Call *call, uint32_t number, bool in_second) {
    Outcome outcome = call_run(call);
    words_free(&outcome.result);
    return outcome.number == number && (!in_second || outcome.node >= call->first.at[0]);
}

void print_clashing(Random *random) {
    static const uint32_t numbers[] = {CLASH, CLASH, QUICK_FAILS, NO_CHOICE};
    uint32_t kind = random_below(random, 4);
    Call call = random_call_for(random, numbers[kind]);
    while (!clashes_so(&call, numbers[kind], kind == 0)) {
        call_free(&call);
        call = random_call_for(random, numbers[kind]);
    }
    meet_print(&call, stdout);
    call_free(&call);
}
