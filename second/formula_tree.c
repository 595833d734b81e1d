// Trees of formulas, and texts into trees: one pass over the signs, with the open parentheses on a
// stack of its own, since a text may open thousands.
#include "formula_tree.h"

#include <stdlib.h>

void tree_free(FormulaTree *tree) {
    free(tree->at);
    *tree = (FormulaTree){0};
}

uint32_t tree_add(FormulaTree *tree, FormulaKind kind, uint32_t number) {
    if (tree->count == tree->room) {
        tree->room = tree->room == 0 ? 64 : 2 * tree->room;
        tree->at = resized(tree->at, tree->room, sizeof *tree->at);
    }
    tree->at[tree->count] = (Formula){kind, number, NO_FORMULA, NO_FORMULA, NO_FORMULA};
    return (uint32_t)tree->count++;
}

void tree_append(FormulaTree *tree, uint32_t whole, uint32_t part) {
    Formula *formula = &tree->at[whole];
    if (formula->first == NO_FORMULA) {
        formula->first = part;
    } else {
        tree->at[formula->last].next = part;
    }
    formula->last = part;
}

uint32_t tree_unwrapped(const FormulaTree *tree, uint32_t formula) {
    const Formula *whole = &tree->at[formula];
    bool joins = whole->kind == FORMULA_ALL || whole->kind == FORMULA_ANY;
    return joins && whole->first == whole->last ? whole->first : formula;
}

uint32_t tree_nesting(const FormulaTree *tree, uint32_t formula) {
    uint32_t deepest = 0;
    const Formula *whole = &tree->at[formula];
    for (uint32_t part = whole->first; part != NO_FORMULA; part = tree->at[part].next) {
        uint32_t nesting = tree_nesting(tree, part);
        deepest = nesting > deepest ? nesting : deepest;
    }
    return deepest + (whole->kind == FORMULA_ANY);
}

// What stands between two parentheses, or the whole text, as far as it has been read.
typedef struct {
    uint32_t any;       // the alternatives that are complete
    uint32_t all;       // the conjuncts that are complete in the alternative being read
    uint32_t outermost; // of the features before the next unit, or NO_FORMULA
    uint32_t innermost;
} Group;

typedef struct {
    FormulaTree *tree;
    const char *text;
    size_t length;
    size_t position;
    Group *groups; // the innermost last
    size_t depth;
    size_t room;
    uint32_t same; // the shared paths being read
    uint32_t path; // the path being read, or NO_FORMULA
} Parse;

static void open_group(Parse *parse) {
    if (parse->depth == parse->room) {
        parse->room = parse->room == 0 ? 16 : 2 * parse->room;
        parse->groups = resized(parse->groups, parse->room, sizeof(Group));
    }
    uint32_t any = tree_add(parse->tree, FORMULA_ANY, 0);
    uint32_t all = tree_add(parse->tree, FORMULA_ALL, 0);
    parse->groups[parse->depth++] = (Group){any, all, NO_FORMULA, NO_FORMULA};
}

static Group *open_now(Parse *parse) {
    return &parse->groups[parse->depth - 1];
}

static void end_alternative(Parse *parse) {
    Group *group = open_now(parse);
    tree_append(parse->tree, group->any, tree_unwrapped(parse->tree, group->all));
    group->all = tree_add(parse->tree, FORMULA_ALL, 0);
}

// The formula of the innermost group, which is left.
static uint32_t close_group(Parse *parse) {
    end_alternative(parse);
    uint32_t any = open_now(parse)->any;
    parse->depth--;
    return tree_unwrapped(parse->tree, any);
}

// A feature before a unit stands within those before it.
static void add_feature(Parse *parse, uint32_t feature) {
    Group *group = open_now(parse);
    uint32_t at = tree_add(parse->tree, FORMULA_AT, feature);
    if (group->innermost == NO_FORMULA) {
        group->outermost = at;
    } else {
        tree_append(parse->tree, group->innermost, at);
    }
    group->innermost = at;
}

// A unit is complete, and with it the features before it.
static void add_unit(Parse *parse, uint32_t unit) {
    Group *group = open_now(parse);
    if (group->innermost != NO_FORMULA) {
        tree_append(parse->tree, group->innermost, unit);
        unit = group->outermost;
    }
    tree_append(parse->tree, group->all, unit);
    group->outermost = NO_FORMULA;
    group->innermost = NO_FORMULA;
}

static void open_path(Parse *parse) {
    parse->path = tree_add(parse->tree, FORMULA_PATH, 0);
    tree_append(parse->tree, parse->same, parse->path);
}

static uint32_t take_number(Parse *parse) {
    uint32_t number = 0;
    while (parse->position < parse->length && parse->text[parse->position] >= '0' &&
           parse->text[parse->position] <= '9') {
        number = 10 * number + (uint32_t)(parse->text[parse->position++] - '0');
    }
    return number;
}

static void take_feature(Parse *parse) {
    uint32_t feature = take_number(parse);
    if (parse->path == NO_FORMULA) {
        add_feature(parse, feature);
    } else {
        tree_append(parse->tree, parse->path, tree_add(parse->tree, FORMULA_STEP, feature));
    }
}

// Takes the sign that begins with a byte, which has been read. Of `NIL` and `TOP` the first letter
// says all; the other letters, spaces, colons and commas say nothing more.
static void take_sign(Parse *parse, char byte) {
    switch (byte) {
    case 'N':
        add_unit(parse, tree_add(parse->tree, FORMULA_NIL, 0));
        break;
    case 'T':
        add_unit(parse, tree_add(parse->tree, FORMULA_TOP, 0));
        break;
    case 'a':
        add_unit(parse, tree_add(parse->tree, FORMULA_ATOM, take_number(parse)));
        break;
    case 'f':
        take_feature(parse);
        break;
    case '[':
        parse->same = tree_add(parse->tree, FORMULA_SAME, 0);
        break;
    case '<':
        open_path(parse);
        break;
    case '>':
        parse->path = NO_FORMULA;
        break;
    case ']':
        add_unit(parse, parse->same);
        break;
    case '(':
        open_group(parse);
        break;
    case ')':
        add_unit(parse, close_group(parse));
        break;
    case '|':
        end_alternative(parse);
        break;
    default:
        break;
    }
}

uint32_t tree_parse(FormulaTree *tree, const char *text, size_t length) {
    Parse parse = {.tree = tree, .text = text, .length = length, .path = NO_FORMULA};
    open_group(&parse);
    while (parse.position < length) {
        take_sign(&parse, text[parse.position++]);
    }
    uint32_t whole = close_group(&parse);
    free(parse.groups);
    return whole;
}
