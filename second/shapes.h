// Random descriptions of every shape, as trees that the caller frees.
#ifndef SHAPES_H
#define SHAPES_H

#include "description.h"
#include "random.h"

// A small stock of features and atoms, so that clashes and agreements both are common.
typedef struct {
    uint32_t first_feature;
    uint32_t feature_count;
    uint32_t first_atom;
    uint32_t atom_count;
} Vocabulary;

// How large a random description may be.
typedef struct {
    uint32_t most_nodes;
    uint32_t most_disjunctions;
    uint32_t most_alternatives;
    int deepest;
} Size;

typedef struct {
    Description first;
    Description second;
} Pair;

void pair_free(Pair *pair);

// Adds an arc to a node; features are added by rising number.
void node_add(Node *node, uint32_t feature, uint32_t target);

Vocabulary random_vocabulary(Random *random);

// A random canonical graph, with cycles and shared values.
Graph random_graph(Random *random, Vocabulary vocabulary, uint32_t most_nodes);

// A random description.
Description random_description(Random *random, Vocabulary vocabulary, Size size);

// Two descriptions of one of the special shapes or of a random one.
Pair random_pair(Random *random);

// Two descriptions with about or over 4,096 choices.
Pair random_many_choices(Random *random);

// A description of exactly so many words, at least 20.
Description random_of_length(Random *random, uint32_t length);

// The same, inside so many levels of alternatives; it may have one level more of its own.
Description random_nested_of_length(Random *random, uint32_t length, uint32_t levels);

#endif
