// Two graphs to join: classes that collapse, and wide nodes. Each takes close to 1,024 words.
#include "adverse_parts.h"

#include "random.h"

enum { NO_DISJUNCTIONS = 0, CYCLE = 7, WIDEST = 510, MOST_LEAVES = 340 };

static void add_node(Words *words, uint32_t feature, uint32_t target) {
    add_fan(words, 1, feature, 1, target);
}

void add_fan(Words *words, uint32_t arcs, uint32_t feature, uint32_t step, uint32_t target) {
    words_add(words, arcs);
    for (uint32_t index = 0; index < arcs; index++) {
        words_add(words, feature + step * index);
        words_add(words, target);
    }
}

void add_cycle(Words *words, uint32_t nodes, uint32_t feature) {
    words_add(words, nodes);
    for (uint32_t node = 0; node < nodes; node++) {
        add_node(words, feature, (node + 1) % nodes);
    }
}

// Two cycles of coprime lengths under one feature: all nodes fall into one class.
static void make_cycles(Words *first, Words *second, uint32_t one, uint32_t other) {
    add_cycle(first, one, CYCLE);
    words_add(first, NO_DISJUNCTIONS);
    add_cycle(second, other, CYCLE);
    words_add(second, NO_DISJUNCTIONS);
}

void make_cycles_340_339(Words *first, Words *second) {
    make_cycles(first, second, 340, 339);
}

void make_cycles_340_211(Words *first, Words *second) {
    make_cycles(first, second, 340, 211);
}

// A cycle under the last feature whose nodes each have an arc to the root under a feature of
// their own, from the one given on.
static void add_own_cycle(Words *words, uint32_t nodes, uint32_t own) {
    words_add(words, nodes);
    for (uint32_t node = 0; node < nodes; node++) {
        const uint32_t arcs[] = {2, own + node, 0, LAST, (node + 1) % nodes};
        words_add_all(words, arcs, 5);
    }
    words_add(words, NO_DISJUNCTIONS);
}

// The class that all nodes fall into gets an arc with each of them, before the cycle's.
void make_cycles_own_features(Words *first, Words *second) {
    add_own_cycle(first, 204, 0);
    add_own_cycle(second, 203, 10000);
}

// A path falls into one class one node after the other.
void make_path_into_loop(Words *first, Words *second) {
    uint32_t nodes = MOST_LEAVES;
    words_add(first, nodes);
    for (uint32_t node = 0; node + 1 < nodes; node++) {
        add_node(first, CYCLE, node + 1);
    }
    words_add(first, 0);
    words_add(first, NO_DISJUNCTIONS);
    add_cycle(second, 1, CYCLE);
    words_add(second, NO_DISJUNCTIONS);
}

// Each node of a cycle falls into the class of a root whose arc under the cycle's feature comes
// after all its others.
void make_cycle_into_wide_loop(Words *first, Words *second) {
    add_cycle(first, 340, LAST);
    words_add(first, NO_DISJUNCTIONS);
    words_add(second, 1);
    add_fan(second, WIDEST, LAST - WIDEST + 1, 1, 0);
    words_add(second, NO_DISJUNCTIONS);
}

// The root has an arc to each node, and each node one to the node before it. The other graph says
// that the last node is its own neighbour, so the classes are united from the last node down.
void make_rungs_from_the_end(Words *first, Words *second) {
    uint32_t nodes = 203;
    words_add(first, nodes + 1);
    words_add(first, nodes);
    for (uint32_t node = 1; node <= nodes; node++) {
        words_add(first, node);
        words_add(first, node);
    }
    words_add(first, 0);
    for (uint32_t node = 2; node <= nodes; node++) {
        add_node(first, LAST, node - 1);
    }
    words_add(first, NO_DISJUNCTIONS);
    const uint32_t looped[] = {2, 1, nodes, 1, 1, LAST, 1, NO_DISJUNCTIONS};
    words_add_all(second, looped, 8);
}

// The target of an arc of a node: a new node, where one is left and the coin or the order of first
// arrival asks for it, or one that was met.
static uint32_t draw_target(Random *random, uint32_t nodes, bool needed, uint32_t *met) {
    bool fresh = random_one_in(random, 2) || needed;
    if (fresh && *met < nodes) {
        return (*met)++;
    }
    return random_below(random, *met);
}

// A graph with two arcs at every node, to nodes drawn by chance.
static void add_machine(Words *words, uint32_t nodes, uint64_t seed) {
    Random random = {seed};
    uint32_t met = 1;
    words_add(words, nodes);
    for (uint32_t node = 0; node < nodes; node++) {
        uint32_t left = draw_target(&random, nodes, false, &met);
        uint32_t right = draw_target(&random, nodes, met == node + 1, &met);
        const uint32_t arcs[] = {2, CYCLE, left, LAST, right};
        words_add_all(words, arcs, 5);
    }
    words_add(words, NO_DISJUNCTIONS);
}

void make_machines(Words *first, Words *second) {
    add_machine(first, 204, 1);
    add_machine(second, 204, 2);
}

// A root with as many arcs as the words hold, all to one node.
static void add_star(Words *words, uint32_t feature, uint32_t step) {
    words_add(words, 2);
    add_fan(words, WIDEST, feature, step, 1);
    words_add(words, 0);
    words_add(words, NO_DISJUNCTIONS);
}

void make_star_equal(Words *first, Words *second) {
    add_star(first, 0, 1);
    add_star(second, 0, 1);
}

void make_star_interleaved(Words *first, Words *second) {
    add_star(first, 0, 2);
    add_star(second, 1, 2);
}

void make_star_above(Words *first, Words *second) {
    add_star(first, 0, 1);
    add_star(second, WIDEST, 1);
}

void make_star_below(Words *first, Words *second) {
    add_star(first, WIDEST, 1);
    add_star(second, 0, 1);
}

// A root with as many arcs to as many nodes as the words hold.
static void add_leaves(Words *words, uint32_t feature) {
    words_add(words, MOST_LEAVES + 1);
    words_add(words, MOST_LEAVES);
    for (uint32_t leaf = 0; leaf < MOST_LEAVES; leaf++) {
        words_add(words, feature + 2 * leaf);
        words_add(words, leaf + 1);
    }
    for (uint32_t leaf = 0; leaf < MOST_LEAVES; leaf++) {
        words_add(words, 0);
    }
    words_add(words, NO_DISJUNCTIONS);
}

void make_leaves_equal(Words *first, Words *second) {
    add_leaves(first, 0);
    add_leaves(second, 0);
}

void make_leaves_interleaved(Words *first, Words *second) {
    add_leaves(first, 0);
    add_leaves(second, 1);
}
