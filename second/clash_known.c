// Known nodes at which graphs clash, and all pairs of small graphs.
#include "check.h"

#include "clash_check.h"
#include "clash_node.h"
#include "clash_text.h"
#include "known.h"
#include "structures.h"

#include <inttypes.h>
#include <stdio.h>
#include <stdlib.h>

enum { NO_CLASH = -1, MALFORMED = -2 };

typedef struct {
    const char *first;
    const char *second;
    int node;
} KnownNode;

// Feature 1 is atom 10, and feature 2 atom 11.
#define TWO_ATOMS "3 2 1 1 2 2 65546 65547 0 "

// Feature 1 is atom 10, feature 2 atom 20, and feature 4 of the value of feature 3 is feature 1's.
#define BACK "4 3 1 1 2 2 3 3 65546 65556 1 4 1 0 "

static const KnownNode cases[] = {
    {A, B, 1},
    {A, A, NO_CLASH},
    {E, E, NO_CLASH},
    {N, N, NO_CLASH},
    {A, C, NO_CLASH},
    {A_AND_C, E, NO_CLASH},
    {"1 65546 0 ", "1 65546 0 ", NO_CLASH},
    {"1 65546 0 ", N, NO_CLASH},
    // at the roots
    {"1 65546 0 ", "2 1 1 1 0 0 ", 0},
    {"2 1 1 1 0 0 ", "1 65546 0 ", 0},
    {"1 65546 0 ", "1 65547 0 ", 0},
    {L, "1 65546 0 ", 0},
    {L, A, 0},
    // an atom and an arc
    {A, "2 1 1 1 1 1 0 0 ", 1},
    // the one graph makes nodes of the other equal
    {E, TWO_ATOMS, 1},
    {TWO_ATOMS, E, 1},
    // the class has nodes of the second graph alone, or of the first
    {E, TWO_BELOW, 5},
    {TWO_BELOW, E, 3},
    {N, TWO_BELOW, NO_CLASH},
    // node 2 clashes at once, and node 1 only when the values of feature 3 are equal
    {BACK, "2 1 2 1 65557 0 ", 2},
    {BACK, "4 2 2 1 3 2 65557 1 4 3 65547 0 ", 1},
    {BACK, "4 2 2 1 3 2 65557 1 4 3 65546 0 ", 2},
    {"4 2 2 1 3 2 65557 1 4 3 65547 0 ", BACK, 1},
    // node 1 clashes at once, and then all nodes become equal
    {"2 2 1 1 2 1 65546 0 ", "3 2 1 1 2 2 1 2 1 1 2 0 0 ", 0},
    // a cycle of two nodes takes up a chain, whose end bears an atom
    {"2 1 1 1 1 1 0 0 ", "4 1 1 1 1 1 2 1 1 3 65546 0 ", 1},
    {"2 1 1 1 1 1 0 0 ", "3 1 1 1 1 1 2 65546 0 ", 0},
};

enum { CASES = sizeof cases / sizeof *cases };

static int found_node(const Pair *pair) {
    uint32_t node;
    bool clash = clash_node(&pair->first.graph, &pair->second.graph, &node);
    return clash ? (int)node : NO_CLASH;
}

static bool known_holds(const KnownNode *known) {
    Words first = words_from(known->first);
    Words second = words_from(known->second);
    Pair pair;
    int node = MALFORMED;
    if (definite_read(&first, &second, &pair)) {
        node = found_node(&pair);
        pair_free(&pair);
    }
    if (node != known->node) {
        printf("known graphs %sand %s: node %d\n", known->first, known->second, node);
    }
    words_free(&first);
    words_free(&second);
    return node == known->node;
}

int run_known_nodes(void) {
    bool all = true;
    for (size_t index = 0; index < CASES; index++) {
        all &= known_holds(&cases[index]);
    }
    printf("known: %d pairs of graphs with their nodes: %s\n", (int)CASES,
           all ? "as request Six says" : "DIFFERENT");
    return all ? 0 : 1;
}

// All small structures, as descriptions.
static Description *small_descriptions(const Structures *structures) {
    Description *descriptions = zeroed(structures->count, sizeof(Description));
    for (size_t index = 0; index < structures->count; index++) {
        Words words = {0};
        sheet_write(&structures->sheets[index], &words);
        words_add(&words, 0);
        description_read(words.at, words.count, &descriptions[index]);
        words_free(&words);
    }
    return descriptions;
}

static bool is_small(const Description *description) {
    return description->graph.node_count < STRUCTURE_NODES;
}

// All pairs of graphs of up to three nodes, one of which has up to two.
static void check_small_pairs(NodeCheck *check, const Description *small, size_t count) {
    for (size_t index = 0; index < count * count && check->failure == NULL; index++) {
        Pair pair = {small[index / count], small[index % count]};
        if (is_small(&pair.first) || is_small(&pair.second)) {
            check_node(check, &pair);
        }
    }
}

int run_small_pairs(void) {
    NodeCheck check = {0};
    Structures structures = all_structures();
    Description *small = small_descriptions(&structures);
    sheet_open(&check.sheet, MOST_CELLS);
    check_small_pairs(&check, small, structures.count);
    printf("known: %" PRIu64 " pairs of small graphs agree, %" PRIu64 " clash: %s\n",
           check.agreeing, check.clashing,
           check.failure == NULL ? "at the nodes that merging tells" : check.failure);
    for (size_t index = 0; index < structures.count; index++) {
        description_free(&small[index]);
    }
    free(small);
    sheet_free(&check.sheet);
    structures_free(&structures);
    return check.failure == NULL ? 0 : 1;
}
