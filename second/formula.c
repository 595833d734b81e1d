// Formulas into descriptions: the checks in the order of request One.
#include "formula.h"

#include "formula_describe.h"
#include "formula_text.h"

static FormulaOutcome refusal(uint32_t number, uint32_t told) {
    return (FormulaOutcome){.number = number, .told = told};
}

// Writes a description, which is consumed, if there is room for it.
static FormulaOutcome deliver(Description *description, size_t room) {
    FormulaOutcome outcome = {0};
    description_write(description, &outcome.result);
    description_free(description);
    size_t length = outcome.result.count;
    if (length <= LONGEST_DESCRIBED && length <= room) {
        outcome.told = (uint32_t)length;
        return outcome;
    }
    words_free(&outcome.result);
    return length > LONGEST_DESCRIBED ? refusal(FORMULA_LARGE, 0)
                                      : refusal(FORMULA_NO_ROOM, (uint32_t)length);
}

// Describes a tree; the checks from 21 on.
static FormulaOutcome describe_tree(const FormulaTree *tree, uint32_t whole, size_t room) {
    Description description;
    if (tree_nesting(tree, whole) > DEEPEST) {
        return refusal(FORMULA_DEEP, 0);
    }
    if (!formula_describe(tree, whole, &description)) {
        return refusal(FORMULA_CLASH, 0);
    }
    return deliver(&description, room);
}

FormulaOutcome formula(const char *text, size_t length, size_t room) {
    size_t byte;
    if (length > LONGEST_FORMULA) {
        return refusal(FORMULA_TOO_LONG, 0);
    }
    if (!formula_reads(text, length, &byte)) {
        return refusal(FORMULA_BAD, (uint32_t)byte);
    }
    FormulaTree tree = {0};
    uint32_t whole = tree_parse(&tree, text, length);
    FormulaOutcome outcome = describe_tree(&tree, whole, room);
    tree_free(&tree);
    return outcome;
}
