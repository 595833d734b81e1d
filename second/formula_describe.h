// What a formula describes.
#ifndef FORMULA_DESCRIBE_H
#define FORMULA_DESCRIBE_H

#include "formula_tree.h"

// The description of a formula; false when it is a clash, and then nothing is to be freed.
bool formula_describe(const FormulaTree *tree, uint32_t formula, Description *description);

#endif
