// Random formulas of every shape.
#ifndef FORMULA_SHAPES_H
#define FORMULA_SHAPES_H

#include "formula_tree.h"
#include "random.h"
#include "shapes.h"

// How a random formula may look.
typedef struct {
    Vocabulary vocabulary;
    uint32_t deepest; // levels of the tree
    uint32_t nesting; // levels of disjunctions
} FormulaSize;

// A small formula.
uint32_t random_formula(Random *random, FormulaTree *tree, FormulaSize size);

// A formula of one of the special shapes or of a random one, mostly small.
uint32_t random_shape(Random *random, FormulaTree *tree);

// Disjunctions nested so deep, among other things.
uint32_t random_nested(Random *random, FormulaTree *tree, uint32_t levels);

// A formula whose description has exactly so many words, at least 100.
uint32_t random_of_words(Random *random, FormulaTree *tree, uint32_t words);

// Both formulas together.
uint32_t both_formulas(FormulaTree *tree, uint32_t first, uint32_t second);

// What clashes by itself.
uint32_t random_clash(Random *random, FormulaTree *tree, Vocabulary vocabulary);

#endif
