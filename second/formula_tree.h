// Formulas as trees: figure 1 of document 004 as request One types it.
#ifndef FORMULA_TREE_H
#define FORMULA_TREE_H

#include "description.h"

typedef enum {
    FORMULA_NIL,
    FORMULA_TOP,
    FORMULA_ATOM, // bears a number
    FORMULA_AT,   // a feature, and one part
    FORMULA_SAME, // its parts are paths that share a value
    FORMULA_PATH, // its parts are steps
    FORMULA_STEP, // a feature
    FORMULA_ALL,  // two or more parts
    FORMULA_ANY   // two or more parts
} FormulaKind;

// A formula, a path or a step, and its parts in the order of the text.
typedef struct {
    FormulaKind kind;
    uint32_t number; // of the atom or the feature
    uint32_t first;  // the first part, or NO_FORMULA
    uint32_t last;
    uint32_t next; // the next part of what this is a part of
} Formula;

static const uint32_t NO_FORMULA = UINT32_MAX;

// Formulas named by their places; only those that the whole reaches count.
typedef struct {
    Formula *at;
    size_t count;
    size_t room;
} FormulaTree;

void tree_free(FormulaTree *tree);

// A new formula without parts.
uint32_t tree_add(FormulaTree *tree, FormulaKind kind, uint32_t number);

// Makes one formula the last part of another; each is part of one other at most.
void tree_append(FormulaTree *tree, uint32_t whole, uint32_t part);

// The only part of a conjunction or disjunction that has one; otherwise the formula itself.
uint32_t tree_unwrapped(const FormulaTree *tree, uint32_t formula);

// Adds what a text says, which is known to be a formula.
uint32_t tree_parse(FormulaTree *tree, const char *text, size_t length);

// How many disjunctions are nested in a formula at most.
uint32_t tree_nesting(const FormulaTree *tree, uint32_t formula);

#endif
