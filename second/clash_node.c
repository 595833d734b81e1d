// Where two graphs clash: all pairs of nodes are gone over, again and again, until no further pair
// becomes equal; then the class of each node is looked at.
#include "clash_node.h"

#include <stdlib.h>

// The nodes of both graphs side by side, and of each pair of them whether it is equal.
typedef struct {
    const Graph *first;
    const Graph *second;
    uint32_t count;
    bool *equal; // a row for each node
} Pairs;

static const Node *node_at(const Pairs *pairs, uint32_t place) {
    uint32_t before = pairs->first->node_count;
    return place < before ? &pairs->first->nodes[place] : &pairs->second->nodes[place - before];
}

// Where an arc of a node leads, among the nodes side by side.
static uint32_t target_at(const Pairs *pairs, uint32_t place, uint32_t index) {
    uint32_t before = place < pairs->first->node_count ? 0 : pairs->first->node_count;
    return before + node_at(pairs, place)->arcs[index].target;
}

static bool are_equal(const Pairs *pairs, uint32_t left, uint32_t right) {
    return pairs->equal[(size_t)left * pairs->count + right];
}

// Makes two nodes equal, in both orders; false when they were so before.
static bool make_equal(Pairs *pairs, uint32_t left, uint32_t right) {
    bool changed = !are_equal(pairs, left, right);
    pairs->equal[(size_t)left * pairs->count + right] = true;
    pairs->equal[(size_t)right * pairs->count + left] = true;
    return changed;
}

// Makes equal where an arc of a node leads and where another node's arc of that feature does.
static bool settle_arc(Pairs *pairs, uint32_t left, uint32_t arc, uint32_t right) {
    const Node *other = node_at(pairs, right);
    uint32_t feature = node_at(pairs, left)->arcs[arc].feature;
    bool changed = false;
    for (uint32_t index = 0; index < other->arc_count; index++) {
        if (other->arcs[index].feature == feature) {
            changed |=
                make_equal(pairs, target_at(pairs, left, arc), target_at(pairs, right, index));
        }
    }
    return changed;
}

// Equal nodes have equal targets under an equal feature.
static bool settle_targets(Pairs *pairs, uint32_t left, uint32_t right) {
    bool changed = false;
    for (uint32_t arc = 0; arc < node_at(pairs, left)->arc_count; arc++) {
        changed |= settle_arc(pairs, left, arc, right);
    }
    return changed;
}

// What is equal to the one of two equal nodes is equal to the other.
static bool settle_equals(Pairs *pairs, uint32_t left, uint32_t right) {
    bool changed = false;
    for (uint32_t place = 0; place < pairs->count; place++) {
        if (are_equal(pairs, right, place)) {
            changed |= make_equal(pairs, left, place);
        }
    }
    return changed;
}

// Goes over all pairs once; false when nothing has changed, and then the relation is closed.
static bool settle_pairs(Pairs *pairs) {
    bool changed = false;
    for (size_t pair = 0; pair < (size_t)pairs->count * pairs->count; pair++) {
        if (pairs->equal[pair]) {
            uint32_t left = (uint32_t)(pair / pairs->count);
            uint32_t right = (uint32_t)(pair % pairs->count);
            changed |= settle_targets(pairs, left, right);
            changed |= settle_equals(pairs, left, right);
        }
    }
    return changed;
}

// Each node is equal to itself, and the roots are equal; the rest follows.
static Pairs closed_pairs(const Graph *first, const Graph *second) {
    uint32_t count = first->node_count + second->node_count;
    Pairs pairs = {first, second, count, zeroed((size_t)count * count, sizeof(bool))};
    for (uint32_t place = 0; place < count; place++) {
        make_equal(&pairs, place, place);
    }
    bool changed = make_equal(&pairs, 0, first->node_count);
    while (changed) {
        changed = settle_pairs(&pairs);
    }
    return pairs;
}

// Whether a node bears an atom, and another node a different atom or an arc.
static bool nodes_clash(const Node *node, const Node *other) {
    bool differ = other->has_atom && other->atom != node->atom;
    return node->has_atom && (differ || other->arc_count > 0);
}

// Whether a node bears an atom that clashes with a node equal to it.
static bool atom_clashes(const Pairs *pairs, uint32_t place) {
    bool clash = false;
    for (uint32_t other = 0; !clash && other < pairs->count; other++) {
        clash = are_equal(pairs, place, other) &&
                nodes_clash(node_at(pairs, place), node_at(pairs, other));
    }
    return clash;
}

// Whether the class of a node holds a clash.
static bool class_clashes(const Pairs *pairs, uint32_t place) {
    bool clash = false;
    for (uint32_t other = 0; !clash && other < pairs->count; other++) {
        clash = are_equal(pairs, place, other) && atom_clashes(pairs, other);
    }
    return clash;
}

bool clash_node(const Graph *first, const Graph *second, uint32_t *node) {
    Pairs pairs = closed_pairs(first, second);
    uint32_t place = 0;
    while (place < pairs.count && !class_clashes(&pairs, place)) {
        place++;
    }
    bool clash = place < pairs.count;
    *node = clash ? place : 0;
    free(pairs.equal);
    return clash;
}

Words class_members(const Graph *first, const Graph *second, uint32_t node) {
    Pairs pairs = closed_pairs(first, second);
    Words members = {0};
    for (uint32_t place = 0; place < pairs.count; place++) {
        if (are_equal(&pairs, node, place)) {
            words_add(&members, place);
        }
    }
    free(pairs.equal);
    return members;
}
