// Joining graphs: all nodes side by side, and the least equivalence found by going over the arcs
// again and again until nothing changes.
#include "join.h"

#include <stdlib.h>

typedef struct {
    uint32_t source;
    uint32_t feature;
    uint32_t target;
} SideArc;

// The nodes and arcs of all graphs side by side. A class is named by its least node, so the
// class of the roots is 0.
typedef struct {
    uint32_t node_count;
    const Node **nodes;
    uint32_t *class_of;
    uint32_t arc_count;
    SideArc *arcs; // by rising feature
} Side;

static void side_free(Side *side) {
    free(side->nodes);
    free(side->class_of);
    free(side->arcs);
}

static uint32_t count_arcs(const Graph *graph) {
    uint32_t count = 0;
    for (uint32_t node = 0; node < graph->node_count; node++) {
        count += graph->nodes[node].arc_count;
    }
    return count;
}

static Side side_with_room(const Graph *const *graphs, size_t count) {
    uint32_t nodes = 0;
    uint32_t arcs = 0;
    for (size_t index = 0; index < count; index++) {
        nodes += graphs[index]->node_count;
        arcs += count_arcs(graphs[index]);
    }
    return (Side){.nodes = zeroed(nodes, sizeof(const Node *)),
                  .class_of = zeroed(nodes, sizeof(uint32_t)),
                  .arcs = zeroed(arcs, sizeof(SideArc))};
}

// Lays a node down, each arc moved by the number of nodes that lie before its graph.
static void lay_node(Side *side, const Node *node, uint32_t before) {
    for (uint32_t index = 0; index < node->arc_count; index++) {
        side->arcs[side->arc_count++] = (SideArc){side->node_count, node->arcs[index].feature,
                                                  before + node->arcs[index].target};
    }
    side->class_of[side->node_count] = side->node_count;
    side->nodes[side->node_count++] = node;
}

// Lays a graph down; its root is equal to all other roots.
static void lay_graph(Side *side, const Graph *graph) {
    uint32_t before = side->node_count;
    for (uint32_t node = 0; node < graph->node_count; node++) {
        lay_node(side, &graph->nodes[node], before);
    }
    side->class_of[before] = 0;
}

static int by_feature(const void *left, const void *right) {
    const SideArc *first = left;
    const SideArc *second = right;
    if (first->feature != second->feature) {
        return first->feature < second->feature ? -1 : 1;
    }
    return first->source < second->source ? -1 : first->source > second->source;
}

static void merge_classes(Side *side, uint32_t first, uint32_t second) {
    uint32_t least = first < second ? first : second;
    uint32_t other = first < second ? second : first;
    for (uint32_t node = 0; node < side->node_count; node++) {
        if (side->class_of[node] == other) {
            side->class_of[node] = least;
        }
    }
}

// Looks back for an arc of the same feature and an equal source, and makes the targets equal.
// The nearest such arc is enough: once nothing changes, all of them have equal targets.
static bool settle_arc(Side *side, uint32_t index) {
    const SideArc *arc = &side->arcs[index];
    for (const SideArc *earlier = arc; earlier > side->arcs;) {
        earlier--;
        if (earlier->feature != arc->feature) {
            return false;
        }
        if (side->class_of[earlier->source] == side->class_of[arc->source]) {
            uint32_t first = side->class_of[earlier->target];
            uint32_t second = side->class_of[arc->target];
            merge_classes(side, first, second);
            return first != second;
        }
    }
    return false;
}

static void close_equivalence(Side *side) {
    bool changed = true;
    while (changed) {
        changed = false;
        for (uint32_t index = 0; index < side->arc_count; index++) {
            changed |= settle_arc(side, index);
        }
    }
}

static Side lay_side_by_side(const Graph *const *graphs, size_t count) {
    Side side = side_with_room(graphs, count);
    for (size_t index = 0; index < count; index++) {
        lay_graph(&side, graphs[index]);
    }
    if (side.arc_count > 0) {
        qsort(side.arcs, side.arc_count, sizeof(SideArc), by_feature);
    }
    close_equivalence(&side);
    return side;
}

// The first node of each class that bears an atom, or null.
static const Node **atoms_of_classes(const Side *side) {
    const Node **atoms = zeroed(side->node_count, sizeof(const Node *));
    for (uint32_t node = side->node_count; node-- > 0;) {
        if (side->nodes[node]->has_atom) {
            atoms[side->class_of[node]] = side->nodes[node];
        }
    }
    return atoms;
}

// A class clashes when it holds two different atoms, or an atom and an arc.
static bool node_clashes(const Node *node, const Node *atom_of_class) {
    if (atom_of_class == NULL) {
        return false;
    }
    return node->arc_count > 0 || (node->has_atom && node->atom != atom_of_class->atom);
}

static bool side_clashes(const Side *side) {
    const Node **atoms = atoms_of_classes(side);
    bool clash = false;
    for (uint32_t node = 0; node < side->node_count; node++) {
        clash |= node_clashes(side->nodes[node], atoms[side->class_of[node]]);
    }
    free(atoms);
    return clash;
}

// The classes in the order of first arrival.
typedef struct {
    uint32_t count;
    uint32_t *classes; // by number
    uint32_t *numbers; // by class, plus one; 0 is a class not yet met
} Arrival;

static uint32_t arrive(Arrival *arrival, uint32_t class) {
    if (arrival->numbers[class] == 0) {
        arrival->classes[arrival->count++] = class;
        arrival->numbers[class] = arrival->count;
    }
    return arrival->numbers[class] - 1;
}

// Gathers the arcs of a class by rising feature, one a feature.
static Node gather_node(const Side *side, uint32_t class, Arrival *arrival) {
    Node node = {0};
    for (uint32_t index = 0; index < side->arc_count; index++) {
        const SideArc *arc = &side->arcs[index];
        if (side->class_of[arc->source] != class) {
            continue;
        }
        if (node.arc_count > 0 && node.arcs[node.arc_count - 1].feature == arc->feature) {
            continue;
        }
        node.arcs = resized(node.arcs, (size_t)node.arc_count + 1, sizeof(Arc));
        uint32_t target = arrive(arrival, side->class_of[arc->target]);
        node.arcs[node.arc_count++] = (Arc){arc->feature, target};
    }
    return node;
}

// The classes as a graph, for a side without a clash.
static Graph classes_as_graph(const Side *side) {
    Arrival arrival = {.classes = zeroed(side->node_count, sizeof(uint32_t)),
                       .numbers = zeroed(side->node_count, sizeof(uint32_t))};
    const Node **atoms = atoms_of_classes(side);
    Graph graph = {0, zeroed(side->node_count, sizeof(Node))};
    arrive(&arrival, 0);
    while (graph.node_count < arrival.count) {
        uint32_t class = arrival.classes[graph.node_count];
        Node node = gather_node(side, class, &arrival);
        if (atoms[class] != NULL) {
            node.has_atom = true;
            node.atom = atoms[class]->atom;
        }
        graph.nodes[graph.node_count++] = node;
    }
    free(atoms);
    free(arrival.classes);
    free(arrival.numbers);
    return graph;
}

bool graphs_agree(const Graph *const *graphs, size_t count) {
    Side side = lay_side_by_side(graphs, count);
    bool agree = !side_clashes(&side);
    side_free(&side);
    return agree;
}

bool graphs_join(const Graph *const *graphs, size_t count, Graph *joined) {
    Side side = lay_side_by_side(graphs, count);
    bool agree = !side_clashes(&side);
    if (agree) {
        *joined = classes_as_graph(&side);
    }
    side_free(&side);
    return agree;
}

bool graphs_join_two(const Graph *first, const Graph *second, Graph *joined) {
    const Graph *both[] = {first, second};
    return graphs_join(both, 2, joined);
}

bool description_fold(Description *description, Description alternative) {
    Graph joined;
    bool agree = graphs_join_two(&description->graph, &alternative.graph, &joined);
    if (agree) {
        graph_free(&description->graph);
        description->graph = joined;
        for (uint32_t index = 0; index < alternative.disjunction_count; index++) {
            description_add(description, alternative.disjunctions[index]);
        }
        free(alternative.disjunctions);
        alternative.disjunctions = NULL;
        alternative.disjunction_count = 0;
    }
    description_free(&alternative);
    return agree;
}

bool description_settle(Description *description, Disjunction kept) {
    if (kept.alternative_count >= 2) {
        description_add(description, kept);
        return true;
    }
    bool stands = false;
    if (kept.alternative_count == 1) {
        stands = description_fold(description, kept.alternatives[0]);
        kept.alternatives[0] = (Description){0};
    }
    disjunction_free(&kept);
    return stands;
}
