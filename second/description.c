// Making, copying and freeing the trees, and the runs of words.
#include "description.h"

#include <stdio.h>
#include <stdlib.h>
#include <string.h>

static void *demand(void *memory) {
    if (memory == NULL) {
        fputs("second: out of memory\n", stderr);
        exit(2);
    }
    return memory;
}

void *zeroed(size_t count, size_t size) {
    return count == 0 ? NULL : demand(calloc(count, size));
}

void *resized(void *memory, size_t count, size_t size) {
    return demand(realloc(memory, count * size));
}

void words_add(Words *words, uint32_t word) {
    if (words->count == words->room) {
        words->room = words->room == 0 ? 16 : 2 * words->room;
        words->at = resized(words->at, words->room, sizeof *words->at);
    }
    words->at[words->count++] = word;
}

void words_add_all(Words *words, const uint32_t *more, size_t count) {
    for (size_t index = 0; index < count; index++) {
        words_add(words, more[index]);
    }
}

void words_free(Words *words) {
    free(words->at);
    *words = (Words){0};
}

Graph graph_of_nothing(void) {
    return (Graph){.node_count = 1, .nodes = zeroed(1, sizeof(Node))};
}

static Node node_copy(const Node *node) {
    Node copy = *node;
    copy.arcs = zeroed(node->arc_count, sizeof(Arc));
    if (node->arc_count > 0) {
        memcpy(copy.arcs, node->arcs, node->arc_count * sizeof(Arc));
    }
    return copy;
}

Graph graph_copy(const Graph *graph) {
    Graph copy = {graph->node_count, zeroed(graph->node_count, sizeof(Node))};
    for (uint32_t node = 0; node < graph->node_count; node++) {
        copy.nodes[node] = node_copy(&graph->nodes[node]);
    }
    return copy;
}

void graph_free(Graph *graph) {
    for (uint32_t node = 0; node < graph->node_count; node++) {
        free(graph->nodes[node].arcs);
    }
    free(graph->nodes);
    *graph = (Graph){0};
}

Disjunction disjunction_copy(const Disjunction *disjunction) {
    Disjunction copy = {disjunction->alternative_count,
                        zeroed(disjunction->alternative_count, sizeof(Description))};
    for (uint32_t index = 0; index < copy.alternative_count; index++) {
        copy.alternatives[index] = description_copy(&disjunction->alternatives[index]);
    }
    return copy;
}

void disjunction_free(Disjunction *disjunction) {
    for (uint32_t index = 0; index < disjunction->alternative_count; index++) {
        description_free(&disjunction->alternatives[index]);
    }
    free(disjunction->alternatives);
    *disjunction = (Disjunction){0};
}

void disjunction_add(Disjunction *disjunction, Description alternative) {
    size_t count = (size_t)disjunction->alternative_count + 1;
    disjunction->alternatives = resized(disjunction->alternatives, count, sizeof alternative);
    disjunction->alternatives[disjunction->alternative_count++] = alternative;
}

Description description_copy(const Description *description) {
    Description copy = *description;
    copy.graph = graph_copy(&description->graph);
    copy.disjunctions = zeroed(description->disjunction_count, sizeof(Disjunction));
    for (uint32_t index = 0; index < copy.disjunction_count; index++) {
        copy.disjunctions[index] = disjunction_copy(&description->disjunctions[index]);
    }
    return copy;
}

void description_free(Description *description) {
    graph_free(&description->graph);
    for (uint32_t index = 0; index < description->disjunction_count; index++) {
        disjunction_free(&description->disjunctions[index]);
    }
    free(description->disjunctions);
    *description = (Description){0};
}

void description_add(Description *description, Disjunction disjunction) {
    size_t count = (size_t)description->disjunction_count + 1;
    description->disjunctions = resized(description->disjunctions, count, sizeof disjunction);
    description->disjunctions[description->disjunction_count++] = disjunction;
}
