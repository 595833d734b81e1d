// What a formula says and what it must deliver, worked out from plain enumeration.
#ifndef FORMULA_EXPECT_H
#define FORMULA_EXPECT_H

#include "brute.h"
#include "formula_tree.h"

// Whether a formula holds of a cell of a structure (figure 1 of document 004).
bool formula_holds(const FormulaTree *tree, uint32_t formula, const Sheet *structure,
                   uint32_t cell);

// The words of the description of a small formula; false when it is a clash.
bool formula_expect(Sheet *sheet, const FormulaTree *tree, uint32_t formula, Words *expected);

#endif
