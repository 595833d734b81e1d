// Satisfaction: each graph node is given a structure node, root to root, along the arcs.
#include "unify.h"

#include <stdlib.h>

static const uint32_t NOT_GIVEN = UINT32_MAX;

// The target of a node's arc with a feature, or NOT_GIVEN without such an arc.
static uint32_t follow(const Node *node, uint32_t feature) {
    for (uint32_t index = 0; index < node->arc_count; index++) {
        if (node->arcs[index].feature == feature) {
            return node->arcs[index].target;
        }
    }
    return NOT_GIVEN;
}

// Gives the targets of a graph node's arcs the structure nodes they must have.
static bool give_targets(const Node *node, const Node *structure_node, uint32_t *given) {
    for (uint32_t index = 0; index < node->arc_count; index++) {
        uint32_t *target = &given[node->arcs[index].target];
        uint32_t reached = follow(structure_node, node->arcs[index].feature);
        if (reached == NOT_GIVEN || (*target != NOT_GIVEN && *target != reached)) {
            return false;
        }
        *target = reached;
    }
    return true;
}

static bool node_fits(const Node *node, const Node *structure_node, uint32_t *given) {
    if (node->has_atom) {
        return structure_node->has_atom && structure_node->atom == node->atom;
    }
    return give_targets(node, structure_node, given);
}

// Numbering is by first arrival, so each node is given before its turn comes.
static bool satisfies_graph(const Graph *structure, const Graph *graph) {
    uint32_t *given = zeroed(graph->node_count, sizeof *given);
    for (uint32_t node = 1; node < graph->node_count; node++) {
        given[node] = NOT_GIVEN;
    }
    bool fits = true;
    for (uint32_t node = 0; fits && node < graph->node_count; node++) {
        fits = node_fits(&graph->nodes[node], &structure->nodes[given[node]], given);
    }
    free(given);
    return fits;
}

static bool satisfies_one(const Graph *structure, const Disjunction *disjunction) {
    bool found = false;
    for (uint32_t index = 0; !found && index < disjunction->alternative_count; index++) {
        found = satisfies(structure, &disjunction->alternatives[index]);
    }
    return found;
}

bool satisfies(const Graph *structure, const Description *description) {
    bool holds = satisfies_graph(structure, &description->graph);
    for (uint32_t index = 0; holds && index < description->disjunction_count; index++) {
        holds = satisfies_one(structure, &description->disjunctions[index]);
    }
    return holds;
}
