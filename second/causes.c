// The cause of a malformed input by a stack of what is still to come: each word is taken for what
// stands on top, has to lie between two bounds, and says what has to come after it.
#include "causes.h"

#include "unify.h"

// The end; alternatives and disjunctions of each level; number of disjunctions, heads, arcs, target
// and feature.
enum { STACK_ROOM = 1 + 2 * DEEPEST + 5 };

// Things of one role that come one after another.
typedef struct {
    Role role;
    uint32_t count;
    uint32_t depth; // of the description that they are part of
} Coming;

typedef struct {
    Coming stack[STACK_ROOM];
    size_t height;
    uint32_t node_count; // this and the rest are of the graph that was begun last
    uint32_t node;       // whose head comes next
    uint32_t met;
    uint32_t least_feature;
} Outlook;

static void expect(Outlook *outlook, Role role, uint32_t count, uint32_t depth) {
    if (count > 0) {
        outlook->stack[outlook->height++] = (Coming){role, count, depth};
    }
}

// Takes one thing from the top of the stack.
static Coming take_thing(Outlook *outlook) {
    Coming *top = &outlook->stack[outlook->height - 1];
    Coming taken = *top;
    top->count--;
    outlook->height -= top->count == 0;
    return taken;
}

// Takes what the next word is there for. A thing of several words is put back as its parts.
static Coming take_word(Outlook *outlook) {
    Coming taken = take_thing(outlook);
    while (taken.role == ROLE_ARC || taken.role == ROLE_DESCRIPTION) {
        bool is_arc = taken.role == ROLE_ARC;
        expect(outlook, is_arc ? ROLE_TARGET : ROLE_DISJUNCTIONS, 1, taken.depth);
        expect(outlook, is_arc ? ROLE_FEATURE : ROLE_NODE_COUNT, 1, taken.depth);
        taken = take_thing(outlook);
    }
    return taken;
}

// A target is a number already met or the next unused one, and below the node count.
static uint32_t greatest_target(const Outlook *outlook) {
    return outlook->met < outlook->node_count ? outlook->met : outlook->node_count - 1;
}

// The bounds of the next word.
static Expected bounds(const Outlook *outlook, Coming coming) {
    switch (coming.role) {
    case ROLE_NODE_COUNT:
        return (Expected){coming.role, 1, UINT32_MAX, 0};
    case ROLE_HEAD:
        if (outlook->node >= outlook->met) {
            return (Expected){coming.role, 1, 0, outlook->node};
        }
        return (Expected){coming.role, 0, HEAD_END - 1, outlook->node};
    case ROLE_FEATURE:
        return (Expected){coming.role, outlook->least_feature, FEATURE_END - 1, 0};
    case ROLE_TARGET:
        return (Expected){coming.role, 0, greatest_target(outlook), 0};
    case ROLE_DISJUNCTIONS:
        return (Expected){coming.role, 0, coming.depth < DEEPEST ? UINT32_MAX : 0, 0};
    case ROLE_ALTERNATIVES:
        return (Expected){coming.role, 2, UINT32_MAX, 0};
    default:
        return (Expected){ROLE_END, 1, 0, 0};
    }
}

// Why a word outside the bounds is wrong.
static Cause cause_at(Expected expected) {
    switch (expected.role) {
    case ROLE_NODE_COUNT:
        return CAUSE_NO_NODES;
    case ROLE_HEAD:
        return expected.most < expected.least ? CAUSE_NOT_MET : CAUSE_BAD_HEAD;
    case ROLE_FEATURE:
        return CAUSE_BAD_FEATURE;
    case ROLE_TARGET:
        return CAUSE_BAD_TARGET;
    case ROLE_DISJUNCTIONS:
        return CAUSE_TOO_DEEP;
    case ROLE_ALTERNATIVES:
        return CAUSE_FEW_ALTERNATIVES;
    default:
        return CAUSE_LEFT_OVER;
    }
}

static void begin_graph(Outlook *outlook, uint32_t node_count, uint32_t depth) {
    outlook->node_count = node_count;
    outlook->node = 0;
    outlook->met = 1;
    expect(outlook, ROLE_HEAD, node_count, depth);
}

// What a word within the bounds says of those after it.
static void accept(Outlook *outlook, Coming coming, uint32_t word) {
    switch (coming.role) {
    case ROLE_NODE_COUNT:
        begin_graph(outlook, word, coming.depth);
        break;
    case ROLE_HEAD:
        outlook->node++;
        outlook->least_feature = 0;
        expect(outlook, ROLE_ARC, word < FEATURE_END ? word : 0, coming.depth);
        break;
    case ROLE_FEATURE:
        outlook->least_feature = word + 1;
        break;
    case ROLE_TARGET:
        outlook->met += word == outlook->met;
        break;
    case ROLE_DISJUNCTIONS:
        expect(outlook, ROLE_ALTERNATIVES, word, coming.depth);
        break;
    default:
        expect(outlook, ROLE_DESCRIPTION, word, coming.depth + 1);
    }
}

static Finding broken_at(size_t place, Expected expected, uint32_t word) {
    Finding finding = {cause_at(expected), 0, place, expected};
    if (finding.cause == CAUSE_BAD_HEAD || finding.cause == CAUSE_BAD_TARGET) {
        finding.data = word;
    }
    return finding;
}

Finding find_cause(const uint32_t *words, size_t length, Expected *each) {
    Outlook outlook = {0};
    expect(&outlook, ROLE_END, 1, 0);
    expect(&outlook, ROLE_DESCRIPTION, 1, 0);
    for (size_t place = 0;; place++) {
        Coming coming = take_word(&outlook);
        Expected expected = bounds(&outlook, coming);
        if (each != NULL) {
            each[place] = expected;
        }
        if (place == length) {
            Cause cause = expected.role == ROLE_END ? CAUSE_NONE : CAUSE_WORDS_END;
            return (Finding){cause, 0, place, expected};
        }
        if (words[place] < expected.least || words[place] > expected.most) {
            return broken_at(place, expected, words[place]);
        }
        accept(&outlook, coming, words[place]);
    }
}

Malformed find_malformed(const Words *first, const Words *second) {
    Malformed nothing = {.number = SUCCESS, .finding.place = first->count};
    if (first->count > LONGEST_INPUT || second->count > LONGEST_INPUT) {
        nothing.number = INPUT_LONG;
        return nothing;
    }
    Malformed found = {FIRST_MALFORMED, find_cause(first->at, first->count, NULL)};
    if (found.finding.cause == CAUSE_NONE) {
        found = (Malformed){SECOND_MALFORMED, find_cause(second->at, second->count, NULL)};
    }
    return found.finding.cause == CAUSE_NONE ? nothing : found;
}
