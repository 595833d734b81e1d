// The trees of document 01: graphs, disjunctions, descriptions, and runs of words.
#ifndef DESCRIPTION_H
#define DESCRIPTION_H

#include <stdbool.h>
#include <stddef.h>
#include <stdint.h>

enum {
    FEATURE_END = 65536, // features are 0..65,535; also the first head that means an atom
    HEAD_END = 131072,   // heads are 0..131,071
    DEEPEST = 4          // alternatives are nested at most so deep
};

typedef struct {
    uint32_t feature;
    uint32_t target;
} Arc;

// A node bears an atom and no arcs, or any number of arcs with rising features.
typedef struct {
    bool has_atom;
    uint32_t atom;
    uint32_t arc_count;
    Arc *arcs;
} Node;

// Node 0 is the root.
typedef struct {
    uint32_t node_count;
    Node *nodes;
} Graph;

typedef struct Description Description;

typedef struct {
    uint32_t alternative_count;
    Description *alternatives;
} Disjunction;

struct Description {
    Graph graph;
    uint32_t disjunction_count;
    Disjunction *disjunctions;
    bool excluded; // mode 2 only: known to stand in no consistent choice
    bool stands;   // mode 2 only: stands in a consistent choice
};

// A growing run of words.
typedef struct {
    uint32_t *at;
    size_t count;
    size_t room;
} Words;

// Zeroed memory for `count` things of `size` bytes; null only for a count of 0.
void *zeroed(size_t count, size_t size);

// The same memory with room for `count` things of `size` bytes.
void *resized(void *memory, size_t count, size_t size);

void words_add(Words *words, uint32_t word);
void words_add_all(Words *words, const uint32_t *more, size_t count);
void words_free(Words *words);

// The graph that says nothing: a root without atom and arcs.
Graph graph_of_nothing(void);
Graph graph_copy(const Graph *graph);
void graph_free(Graph *graph);

Disjunction disjunction_copy(const Disjunction *disjunction);
void disjunction_free(Disjunction *disjunction);

// Adds a description, which is now owned by the disjunction.
void disjunction_add(Disjunction *disjunction, Description alternative);

Description description_copy(const Description *description);
void description_free(Description *description);

// Adds a disjunction, which is now owned by the description.
void description_add(Description *description, Disjunction disjunction);

// Reads words into a tree; false when they are malformed, and then nothing is left to free.
bool description_read(const uint32_t *words, size_t length, Description *description);

// Adds the words of a description.
void description_write(const Description *description, Words *words);

#endif
