// Mode 1: tidying in rounds, as document 01 tells them.
#include "tidy.h"

#include "join.h"

// Tidies a description under a condition; false when it fails, and then nothing is to be freed.
static bool tidy(const Description *description, const Graph *condition, Description *tidied);

// The alternatives that do not fail under the condition, in their tidied form.
static Disjunction tidy_alternatives(const Disjunction *disjunction, const Graph *condition) {
    Disjunction kept = {0};
    for (uint32_t index = 0; index < disjunction->alternative_count; index++) {
        Description tidied;
        if (tidy(&disjunction->alternatives[index], condition, &tidied)) {
            disjunction_add(&kept, tidied);
        }
    }
    return kept;
}

// One round: every alternative is tidied under the join as it stood at the start.
static bool tidy_round(const Description *current, const Graph *start, Description *next,
                       bool *folded) {
    *next = (Description){.graph = graph_copy(&current->graph)};
    *folded = false;
    for (uint32_t index = 0; index < current->disjunction_count; index++) {
        Disjunction kept = tidy_alternatives(&current->disjunctions[index], start);
        *folded |= kept.alternative_count == 1;
        if (!description_settle(next, kept)) {
            description_free(next);
            return false;
        }
    }
    return true;
}

static bool tidy(const Description *description, const Graph *condition, Description *tidied) {
    Description current = description_copy(description);
    for (;;) {
        Graph start;
        Description next;
        bool folded;
        if (!graphs_join_two(condition, &current.graph, &start)) {
            description_free(&current);
            return false;
        }
        bool alive = tidy_round(&current, &start, &next, &folded);
        graph_free(&start);
        description_free(&current);
        if (!alive || !folded) {
            *tidied = next;
            return alive;
        }
        current = next;
    }
}

bool tidy_whole(const Description *description, Description *tidied) {
    Graph nothing = graph_of_nothing();
    bool alive = tidy(description, &nothing, tidied);
    graph_free(&nothing);
    return alive;
}
