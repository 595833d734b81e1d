// Counting the nodes of mode 2's search, over the second program's trees.
//
// The search goes over the quick result, depth first. Its definite graph is taken beforehand and
// is no node. The disjunctions are decided in reading order: those inside an alternative come
// directly after it, before those that follow the disjunction it stands in. To decide a
// disjunction, each of its alternatives is entered in turn: its graph is joined to the graphs
// taken so far, and only if these agree are the disjunctions still open decided below it; then it
// is left again.
//
// A search node is one entering of an alternative, whether the graphs agree or clash. So an
// alternative is a node as many times as what is read before its disjunction can be decided
// consistently with the alternatives it stands in taken, and one that the quick step dropped or
// folded is never a node. Twelve disjunctions of two alternatives without any clash have
// 2 + 4 + .. + 4,096 = 8,190 nodes.
#include "nodes.h"

#include "full.h"
#include "join.h"

#include <stdlib.h>

// The disjunctions still open: the rest of a list, then those open after it.
typedef struct Open {
    const Disjunction *disjunctions;
    uint32_t count;
    const struct Open *after;
} Open;

typedef struct {
    const Graph **taken;
    size_t taken_count;
    size_t room;
    Search counted;
} State;

static void take(State *state, const Graph *graph) {
    if (state->taken_count == state->room) {
        state->room = state->room == 0 ? 16 : 2 * state->room;
        state->taken = resized(state->taken, state->room, sizeof *state->taken);
    }
    state->taken[state->taken_count++] = graph;
}

static void decide(State *state, const Open *open);

static void enter(State *state, const Description *alternative, const Open *after) {
    Open open = {alternative->disjunctions, alternative->disjunction_count, after};
    state->counted.nodes++;
    take(state, &alternative->graph);
    if (graphs_agree(state->taken, state->taken_count)) {
        decide(state, &open);
    }
    state->taken_count--;
}

// Decides the first open disjunction in every way; where none is open, a choice is whole.
static void decide(State *state, const Open *open) {
    while (open != NULL && open->count == 0) {
        open = open->after;
    }
    if (open == NULL) {
        state->counted.readings++;
        return;
    }
    const Disjunction *disjunction = open->disjunctions;
    Open after = {open->disjunctions + 1, open->count - 1, open->after};
    for (uint32_t index = 0; index < disjunction->alternative_count; index++) {
        enter(state, &disjunction->alternatives[index], &after);
    }
}

static Search search(const Description *quick) {
    State state = {0};
    Open open = {quick->disjunctions, quick->disjunction_count, NULL};
    if (count_choices(quick) <= MOST_CHOICES) {
        take(&state, &quick->graph);
        decide(&state, &open);
    }
    free(state.taken);
    return state.counted;
}

Search count_search(const Call *call) {
    Search counted = {0};
    Description quick;
    Outcome outcome = unify(MODE_QUICK, call->first.at, call->first.count, call->second.at,
                            call->second.count, call->room, call->work);
    if (outcome.number == SUCCESS &&
        description_read(outcome.result.at, outcome.result.count, &quick)) {
        counted = search(&quick);
        description_free(&quick);
    }
    words_free(&outcome.result);
    return counted;
}
