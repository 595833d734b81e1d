// Random formulas: plain random ones, and the shapes that a translation is likely to get wrong.
// Each draw is a statement of its own, or the only one of its expression.
#include "formula_shapes.h"

#include "formula_describe.h"

enum { FREE_FEATURE = 200 }; // features from here on are in no vocabulary

uint32_t both_formulas(FormulaTree *tree, uint32_t first, uint32_t second) {
    uint32_t all = tree_add(tree, FORMULA_ALL, 0);
    tree_append(tree, all, first);
    tree_append(tree, all, second);
    return all;
}

static uint32_t random_feature(Random *random, Vocabulary vocabulary) {
    return vocabulary.first_feature + random_below(random, vocabulary.feature_count);
}

static uint32_t random_atom(Random *random, FormulaTree *tree, Vocabulary vocabulary) {
    uint32_t atom = vocabulary.first_atom + random_below(random, vocabulary.atom_count);
    return tree_add(tree, FORMULA_ATOM, atom);
}

static uint32_t at_feature(FormulaTree *tree, uint32_t feature, uint32_t part) {
    uint32_t at = tree_add(tree, FORMULA_AT, feature);
    tree_append(tree, at, part);
    return at;
}

// A path of less than so many steps.
static uint32_t random_path(Random *random, FormulaTree *tree, Vocabulary vocabulary,
                            uint32_t bound) {
    uint32_t path = tree_add(tree, FORMULA_PATH, 0);
    uint32_t steps = random_below(random, bound);
    for (uint32_t step = 0; step < steps; step++) {
        uint32_t feature = random_feature(random, vocabulary);
        tree_append(tree, path, tree_add(tree, FORMULA_STEP, feature));
    }
    return path;
}

static uint32_t random_same(Random *random, FormulaTree *tree, Vocabulary vocabulary) {
    uint32_t same = tree_add(tree, FORMULA_SAME, 0);
    uint32_t paths = random_one_in(random, 5) ? 1 : 2 + random_below(random, 2);
    for (uint32_t path = 0; path < paths; path++) {
        tree_append(tree, same, random_path(random, tree, vocabulary, 4));
    }
    return same;
}

static uint32_t random_leaf(Random *random, FormulaTree *tree, Vocabulary vocabulary) {
    uint32_t kind = random_below(random, 40);
    if (kind < 24) {
        return random_atom(random, tree, vocabulary);
    }
    if (kind < 34) {
        return random_same(random, tree, vocabulary);
    }
    return tree_add(tree, kind < 39 ? FORMULA_NIL : FORMULA_TOP, 0);
}

static uint32_t random_unit(Random *random, FormulaTree *tree, FormulaSize size);

// An atom beside other conjuncts would clash with most of them, so mostly a feature is put before it.
static uint32_t random_conjunct(Random *random, FormulaTree *tree, FormulaSize size) {
    uint32_t unit = random_unit(random, tree, size);
    if (tree->at[unit].kind != FORMULA_ATOM || random_one_in(random, 8)) {
        return unit;
    }
    uint32_t feature = random_feature(random, size.vocabulary);
    return at_feature(tree, feature, unit);
}

static uint32_t random_parts(Random *random, FormulaTree *tree, FormulaSize size,
                             FormulaKind kind) {
    uint32_t whole = tree_add(tree, kind, 0);
    uint32_t count = 2 + random_below(random, 2);
    for (uint32_t part = 0; part < count; part++) {
        tree_append(tree, whole,
                    kind == FORMULA_ALL ? random_conjunct(random, tree, size)
                                        : random_unit(random, tree, size));
    }
    return whole;
}

// Any formula; within the size it is a unit, a conjunction or a disjunction.
static uint32_t random_unit(Random *random, FormulaTree *tree, FormulaSize size) {
    uint32_t kind = random_below(random, 20);
    if (size.deepest == 0 || kind < 4) {
        return random_leaf(random, tree, size.vocabulary);
    }
    size.deepest--;
    if (kind < 12 || (kind < 16 && size.nesting == 0)) {
        uint32_t feature = random_feature(random, size.vocabulary);
        return at_feature(tree, feature, random_unit(random, tree, size));
    }
    if (kind < 16) {
        size.nesting--;
        return random_parts(random, tree, size, FORMULA_ANY);
    }
    return random_parts(random, tree, size, FORMULA_ALL);
}

uint32_t random_formula(Random *random, FormulaTree *tree, FormulaSize size) {
    uint32_t all = tree_add(tree, FORMULA_ALL, 0);
    uint32_t count = 1 + random_below(random, 4);
    for (uint32_t part = 0; part < count; part++) {
        tree_append(tree, all, random_conjunct(random, tree, size));
    }
    return tree_unwrapped(tree, all);
}

// A stock of features and atoms; now and then their numbers gain a digit within it.
static Vocabulary random_stock(Random *random) {
    static const uint32_t edges[] = {8, 98, 998, 9998, 59998, 64998, 65498, 65528};
    Vocabulary vocabulary = random_vocabulary(random);
    if (random_one_in(random, 6)) {
        vocabulary.first_feature = edges[random_below(random, 8)];
        vocabulary.first_atom = edges[random_below(random, 8)];
    }
    return vocabulary;
}

static uint32_t random_small(Random *random, FormulaTree *tree) {
    FormulaSize size = {.vocabulary = random_stock(random)};
    size.deepest = 1 + random_below(random, 4);
    size.nesting = random_below(random, DEEPEST + 1);
    return random_formula(random, tree, size);
}

// Two features share a value.
static uint32_t shared(FormulaTree *tree, uint32_t first, uint32_t second) {
    uint32_t same = tree_add(tree, FORMULA_SAME, 0);
    uint32_t left = tree_add(tree, FORMULA_PATH, 0);
    uint32_t right = tree_add(tree, FORMULA_PATH, 0);
    tree_append(tree, left, tree_add(tree, FORMULA_STEP, first));
    tree_append(tree, right, tree_add(tree, FORMULA_STEP, second));
    tree_append(tree, same, left);
    tree_append(tree, same, right);
    return same;
}

uint32_t random_clash(Random *random, FormulaTree *tree, Vocabulary vocabulary) {
    uint32_t kind = random_below(random, 5);
    uint32_t feature = random_feature(random, vocabulary);
    uint32_t other = random_feature(random, vocabulary);
    bool atoms = random_one_in(random, 2);
    if (kind < 2) {
        uint32_t top = tree_add(tree, FORMULA_TOP, 0);
        return kind == 0 ? top : at_feature(tree, feature, top);
    }
    uint32_t atom = tree_add(tree, FORMULA_ATOM, vocabulary.first_atom);
    uint32_t rival = atoms ? tree_add(tree, FORMULA_ATOM, vocabulary.first_atom ^ 1)
                           : at_feature(tree, other, tree_add(tree, FORMULA_NIL, 0));
    if (kind == 2) {
        return at_feature(tree, feature, both_formulas(tree, atom, rival));
    }
    uint32_t first = at_feature(tree, feature, atom);
    if (kind == 3) {
        return both_formulas(tree, first, at_feature(tree, feature, rival));
    }
    uint32_t whole = both_formulas(tree, first, at_feature(tree, other, rival));
    tree_append(tree, whole, shared(tree, feature, other));
    return whole;
}

// A path of one feature so many times, and the empty path, share a value.
static uint32_t loop(FormulaTree *tree, uint32_t feature, uint32_t steps) {
    uint32_t same = tree_add(tree, FORMULA_SAME, 0);
    uint32_t path = tree_add(tree, FORMULA_PATH, 0);
    for (uint32_t step = 0; step < steps; step++) {
        tree_append(tree, path, tree_add(tree, FORMULA_STEP, feature));
    }
    tree_append(tree, same, path);
    tree_append(tree, same, tree_add(tree, FORMULA_PATH, 0));
    return same;
}

// Two loops of one feature: together they are one whose length is the greatest common divisor.
static uint32_t random_loops(Random *random, FormulaTree *tree) {
    Vocabulary vocabulary = random_vocabulary(random);
    uint32_t feature = random_feature(random, vocabulary);
    uint32_t most = random_one_in(random, 40) ? 300 : 12;
    uint32_t steps = 1 + random_below(random, most);
    uint32_t more = 1 + random_below(random, most);
    uint32_t first = loop(tree, feature, steps);
    uint32_t whole = both_formulas(tree, first, loop(tree, feature, more));
    if (random_one_in(random, 3)) {
        FormulaSize size = {vocabulary, 2, 1};
        tree_append(tree, whole, random_unit(random, tree, size));
    }
    return random_one_in(random, 4) ? at_feature(tree, feature, whole) : whole;
}

// Many pairs of shared paths over few features: most of their nodes fall together.
static uint32_t random_tangle(Random *random, FormulaTree *tree) {
    Vocabulary vocabulary = random_vocabulary(random);
    uint32_t all = tree_add(tree, FORMULA_ALL, 0);
    uint32_t count = 2 + random_below(random, random_one_in(random, 8) ? 60 : 10);
    uint32_t bound = 2 + random_below(random, 10);
    for (uint32_t pair = 0; pair < count; pair++) {
        uint32_t same = tree_add(tree, FORMULA_SAME, 0);
        tree_append(tree, same, random_path(random, tree, vocabulary, bound));
        tree_append(tree, same, random_path(random, tree, vocabulary, bound));
        tree_append(tree, all, same);
    }
    if (random_one_in(random, 3)) {
        uint32_t feature = random_feature(random, vocabulary);
        tree_append(tree, all, at_feature(tree, feature, random_atom(random, tree, vocabulary)));
    }
    return all;
}

static uint32_t random_folding(Random *random, FormulaTree *tree, Vocabulary vocabulary,
                               uint32_t levels);

// An alternative that may stand, with more of its kind within it.
static uint32_t random_standing(Random *random, FormulaTree *tree, Vocabulary vocabulary,
                                uint32_t levels) {
    FormulaSize size = {vocabulary, 2, levels - 1};
    uint32_t own = random_unit(random, tree, size);
    if (levels == 1) {
        return own;
    }
    uint32_t below = random_folding(random, tree, vocabulary, levels - 1);
    if (random_one_in(random, 2)) {
        uint32_t feature = random_feature(random, vocabulary);
        below = at_feature(tree, feature, below);
    }
    return random_one_in(random, 2) ? both_formulas(tree, own, below)
                                    : both_formulas(tree, below, own);
}

// Disjunctions nested so deep, in each of which alternatives clash; most of them are folded.
static uint32_t random_folding(Random *random, FormulaTree *tree, Vocabulary vocabulary,
                               uint32_t levels) {
    uint32_t any = tree_add(tree, FORMULA_ANY, 0);
    uint32_t clashes = 1 + random_below(random, 2);
    uint32_t standing = random_one_in(random, 3) ? 2 : 1;
    while (standing + clashes > 0) {
        bool stands = random_below(random, standing + clashes) < standing;
        standing -= stands;
        clashes -= !stands;
        tree_append(tree, any,
                    stands ? random_standing(random, tree, vocabulary, levels)
                           : random_clash(random, tree, vocabulary));
    }
    return any;
}

// Disjunctions that are folded among some that stay.
static uint32_t random_folded(Random *random, FormulaTree *tree) {
    Vocabulary vocabulary = random_stock(random);
    FormulaSize size = {vocabulary, 2, 2};
    uint32_t all = tree_add(tree, FORMULA_ALL, 0);
    uint32_t count = 1 + random_below(random, 3);
    for (uint32_t part = 0; part < count; part++) {
        uint32_t levels = 1 + random_below(random, DEEPEST);
        tree_append(tree, all,
                    random_one_in(random, 3) ? random_unit(random, tree, size)
                                             : random_folding(random, tree, vocabulary, levels));
    }
    return tree_unwrapped(tree, all);
}

// Puts one more thing before or behind a formula.
static uint32_t random_beside(Random *random, FormulaTree *tree, FormulaKind kind, uint32_t formula,
                              uint32_t other) {
    uint32_t whole = tree_add(tree, kind, 0);
    bool before = random_one_in(random, 2);
    tree_append(tree, whole, before ? other : formula);
    tree_append(tree, whole, before ? formula : other);
    return whole;
}

uint32_t random_nested(Random *random, FormulaTree *tree, uint32_t levels) {
    FormulaSize size = {random_stock(random), 1, 0};
    uint32_t whole = random_unit(random, tree, size);
    for (uint32_t level = 0; level < levels; level++) {
        uint32_t other = random_unit(random, tree, size);
        whole = random_beside(random, tree, FORMULA_ANY, whole, other);
        uint32_t around = random_below(random, 4);
        if (around == 0) {
            uint32_t feature = random_feature(random, size.vocabulary);
            whole = at_feature(tree, feature, whole);
        } else if (around == 1) {
            other = random_unit(random, tree, size);
            whole = random_beside(random, tree, FORMULA_ALL, whole, other);
        }
    }
    return whole;
}

// Many disjunctions side by side.
static uint32_t random_wide(Random *random, FormulaTree *tree) {
    FormulaSize size = {random_stock(random), 2, 1};
    uint32_t all = tree_add(tree, FORMULA_ALL, 0);
    uint32_t count = 2 + random_below(random, 8);
    for (uint32_t part = 0; part < count; part++) {
        tree_append(tree, all, random_parts(random, tree, size, FORMULA_ANY));
    }
    return all;
}

static uint32_t random_of_any_kind(Random *random, FormulaTree *tree) {
    uint32_t kind = random_below(random, 20);
    if (kind < 9) {
        return random_small(random, tree);
    }
    if (kind < 11) {
        return random_loops(random, tree);
    }
    if (kind == 11) {
        return random_tangle(random, tree);
    }
    if (kind < 17) {
        return random_folded(random, tree);
    }
    if (kind < 19) {
        uint32_t levels = 1 + random_below(random, DEEPEST);
        return random_nested(random, tree, levels);
    }
    return random_wide(random, tree);
}

// The words of its description; 0 for a clash.
static uint32_t words_of_formula(const FormulaTree *tree, uint32_t formula) {
    Words words = {0};
    Description description;
    if (formula_describe(tree, formula, &description)) {
        description_write(&description, &words);
        description_free(&description);
    }
    uint32_t count = (uint32_t)words.count;
    words_free(&words);
    return count;
}

// Half of the formulas would clash; most of these are drawn again.
uint32_t random_shape(Random *random, FormulaTree *tree) {
    uint32_t formula = random_of_any_kind(random, tree);
    while (words_of_formula(tree, formula) == 0 && random_below(random, 4) > 0) {
        formula = random_of_any_kind(random, tree);
    }
    return formula;
}

// So many features before a formula.
static uint32_t random_under(Random *random, FormulaTree *tree, Vocabulary vocabulary,
                             uint32_t steps, uint32_t formula) {
    for (uint32_t step = 0; step < steps; step++) {
        uint32_t feature = random_feature(random, vocabulary);
        formula = at_feature(tree, feature, formula);
    }
    return formula;
}

// Features before a disjunction: each alternative has all their arcs, so the words are many. They
// are `words` at most.
static uint32_t random_repeated(Random *random, FormulaTree *tree, uint32_t words) {
    Vocabulary vocabulary = random_stock(random);
    uint32_t any = tree_add(tree, FORMULA_ANY, 0);
    uint32_t steps = 1 + random_below(random, 40);
    uint32_t graphs = (words - 1) / (3 * steps + 3);
    if (graphs < 3) {
        return tree_add(tree, FORMULA_NIL, 0);
    }
    for (uint32_t alternative = 1; alternative < graphs; alternative++) {
        bool bare = random_one_in(random, 4);
        tree_append(tree, any,
                    bare ? tree_add(tree, FORMULA_NIL, 0) : random_atom(random, tree, vocabulary));
    }
    return random_under(random, tree, vocabulary, steps, any);
}

// An arc of a new feature takes two words, and three with a node of its own.
uint32_t random_of_words(Random *random, FormulaTree *tree, uint32_t words) {
    uint32_t all = tree_add(tree, FORMULA_ALL, 0);
    uint32_t base = random_repeated(random, tree, words - 2);
    uint32_t missing = words - words_of_formula(tree, base);
    tree_append(tree, all, base);
    for (uint32_t feature = FREE_FEATURE; missing > 0; feature++) {
        bool loops = missing == 2 || missing == 4 || (missing > 4 && random_one_in(random, 4));
        missing -= loops ? 2 : 3;
        tree_append(tree, all,
                    loops ? loop(tree, feature, 1)
                          : at_feature(tree, feature, tree_add(tree, FORMULA_NIL, 0)));
    }
    return all;
}
