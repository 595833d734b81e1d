// Trees of formulas into texts.
#ifndef FORMULA_SPELL_H
#define FORMULA_SPELL_H

#include "bytes.h"
#include "formula_tree.h"
#include "random.h"

// A text without spaces, and the places between its signs, where spaces may stand.
typedef struct {
    Bytes text;
    Words gaps;
} Spelling;

// The text of a formula, now and then with parentheses that it does not need.
Spelling formula_spell(Random *random, const FormulaTree *tree, uint32_t formula);
void spelling_free(Spelling *spelling);

// The text with so many spaces, each in a gap at random; without gaps it is the text alone.
Bytes spelling_spaced(Random *random, const Spelling *spelling, size_t spaces);

#endif
