// The meaning of formulas: whether one holds of a node of a structure.
#include "formula_expect.h"

static const uint32_t NOWHERE = UINT32_MAX;

static uint32_t follow(const Sheet *structure, uint32_t place, uint32_t feature) {
    const Cell *cell = &structure->cells[place];
    for (uint32_t index = 0; index < cell->link_count; index++) {
        if (cell->links[index].feature == feature) {
            return cell->links[index].target;
        }
    }
    return NOWHERE;
}

// Where a path leads from a cell, or NOWHERE.
static uint32_t path_end(const FormulaTree *tree, uint32_t path, const Sheet *structure,
                         uint32_t cell) {
    uint32_t step = tree->at[path].first;
    for (; step != NO_FORMULA && cell != NOWHERE; step = tree->at[step].next) {
        cell = follow(structure, cell, tree->at[step].number);
    }
    return cell;
}

// Whether all paths lead to one cell.
static bool same_holds(const FormulaTree *tree, const Formula *same, const Sheet *structure,
                       uint32_t cell) {
    uint32_t end = path_end(tree, same->first, structure, cell);
    bool holds = end != NOWHERE;
    for (uint32_t path = same->first; path != NO_FORMULA; path = tree->at[path].next) {
        holds &= path_end(tree, path, structure, cell) == end;
    }
    return holds;
}

// How many parts of a formula hold, and whether all of them do.
static uint32_t parts_that_hold(const FormulaTree *tree, const Formula *whole,
                                const Sheet *structure, uint32_t cell, bool *all) {
    uint32_t count = 0;
    *all = true;
    for (uint32_t part = whole->first; part != NO_FORMULA; part = tree->at[part].next) {
        bool holds = formula_holds(tree, part, structure, cell);
        count += holds;
        *all &= holds;
    }
    return count;
}

bool formula_holds(const FormulaTree *tree, uint32_t formula, const Sheet *structure,
                   uint32_t cell) {
    const Formula *said = &tree->at[formula];
    bool all;
    uint32_t target;
    switch (said->kind) {
    case FORMULA_NIL:
        return true;
    case FORMULA_ATOM:
        return structure->cells[cell].has_atom && structure->cells[cell].atom == said->number;
    case FORMULA_AT:
        target = follow(structure, cell, said->number);
        return target != NOWHERE && formula_holds(tree, said->first, structure, target);
    case FORMULA_SAME:
        return same_holds(tree, said, structure, cell);
    case FORMULA_ALL:
        parts_that_hold(tree, said, structure, cell, &all);
        return all;
    case FORMULA_ANY:
        return parts_that_hold(tree, said, structure, cell, &all) > 0;
    default:
        return false;
    }
}
