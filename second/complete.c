// The completion of words by the recursion of the layout. It takes given words as they are and
// judges none: whether a whole description came out is for the reader to say.
#include "complete.h"

typedef struct {
    const Words *given;
    Words *whole;
    size_t most;
    Completion state;
} Going;

// The next given word or, after the last, the word `added`.
static uint32_t next_word(Going *going, uint32_t added) {
    size_t place = going->whole->count;
    if (place >= going->most) {
        going->state = TOO_LONG;
    }
    if (going->state != COMPLETED) {
        return 0;
    }
    words_add(going->whole, place < going->given->count ? going->given->at[place] : added);
    return going->whole->at[place];
}

// Whether the next word is one to be added.
static bool adds(const Going *going) {
    return going->whole->count >= going->given->count;
}

static void stick_if(Going *going, bool stuck) {
    if (going->state == COMPLETED && adds(going) && stuck) {
        going->state = STUCK;
    }
}

// Arcs that are added take the next feature and lead to the next node that is not yet met.
static void go_through_arcs(Going *going, uint32_t count, uint32_t node_count, uint32_t *met) {
    uint32_t feature = 0;
    for (uint32_t arc = 0; arc < count && going->state == COMPLETED; arc++) {
        stick_if(going, feature >= FEATURE_END);
        feature = next_word(going, feature) + 1;
        uint32_t target = next_word(going, *met < node_count ? *met : 0);
        *met += target == *met;
    }
}

// A node that is added has one arc where the node after it is not yet met, else none.
static void go_through_graph(Going *going) {
    uint32_t met = 1;
    uint32_t node_count = next_word(going, 1);
    for (uint32_t node = 0; node < node_count && going->state == COMPLETED; node++) {
        stick_if(going, node >= met);
        uint32_t head = next_word(going, node + 1 == met && met < node_count);
        go_through_arcs(going, head < FEATURE_END ? head : 0, node_count, &met);
    }
}

static void go_through_description(Going *going);

static void go_through_disjunction(Going *going) {
    uint32_t count = next_word(going, 2);
    for (uint32_t index = 0; index < count && going->state == COMPLETED; index++) {
        go_through_description(going);
    }
}

static void go_through_description(Going *going) {
    go_through_graph(going);
    uint32_t count = next_word(going, 0);
    for (uint32_t index = 0; index < count && going->state == COMPLETED; index++) {
        go_through_disjunction(going);
    }
}

Completion complete(const Words *given, size_t most, Words *whole) {
    Going going = {given, whole, most, COMPLETED};
    *whole = (Words){0};
    go_through_description(&going);
    while (going.state == COMPLETED && !adds(&going)) {
        next_word(&going, 0);
    }
    return going.state;
}
