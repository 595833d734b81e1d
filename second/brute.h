// Plain enumeration over words, for the self-check: nothing here is shared with the unifier but
// the growing run of words. All words given are well formed.
#ifndef BRUTE_H
#define BRUTE_H

#include "description.h"

enum { MOST_CELLS = 4096, MOST_LINKS = 64 };

typedef struct {
    uint32_t feature;
    uint32_t target;
} Link;

// A node that may have been merged into another, to which it then points forward.
typedef struct {
    uint32_t forward;
    bool has_atom;
    uint32_t atom;
    uint32_t link_count;
    Link links[MOST_LINKS];
} Cell;

// Cells in which graphs are merged pair by pair; also a structure with root 0.
typedef struct {
    uint32_t count;
    Cell *cells;
} Sheet;

// A list of graphs, each where its words start.
typedef struct {
    const uint32_t **graphs;
    size_t count;
} Pick;

// All choices of a description; `too_many` when they were not all kept.
typedef struct {
    Pick *picks;
    size_t count;
    bool too_many;
} Picks;

void sheet_open(Sheet *sheet, uint32_t room);
void sheet_free(Sheet *sheet);

// Where a graph ends.
const uint32_t *graph_end(const uint32_t *graph);

void pick_add(Pick *pick, const uint32_t *graph);

// Adds all graphs of another list.
void pick_add_all(Pick *pick, const Pick *more);
void pick_free(Pick *pick);

// All choices of the description in the words, at most `most`.
Picks all_picks(const uint32_t *words, size_t most);
void picks_free(Picks *picks);

// Merges the graphs on the sheet, root into root; false when they clash.
bool sheet_merge_all(Sheet *sheet, const Pick *pick);

// The words of the merged graph, numbered by first arrival.
void sheet_write(const Sheet *sheet, Words *words);

// Whether the structure on the sheet satisfies the description in the words.
bool sheet_satisfies(const Sheet *structure, const uint32_t *words);

#endif
