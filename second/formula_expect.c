// The expected words of a formula. What a part says is kept as a list of facts, each a graph of its
// own about paths from the root; the list is merged anew whenever its graph is asked for.
#include "formula_expect.h"

#include <stdlib.h>

typedef struct Said Said;

// The alternatives of a disjunction that are left.
typedef struct {
    Said *alternatives;
    uint32_t count;
} SaidAny;

// What a part says.
struct Said {
    Words *facts;
    size_t fact_count;
    bool clash;
    SaidAny *anys;
    uint32_t any_count;
};

typedef struct {
    Sheet *sheet;
    const FormulaTree *tree;
} Expecting;

static void add_fact(Said *said, Words fact) {
    said->facts = resized(said->facts, said->fact_count + 1, sizeof fact);
    said->facts[said->fact_count++] = fact;
}

static void add_any(Said *said, SaidAny any) {
    said->anys = resized(said->anys, (size_t)said->any_count + 1, sizeof any);
    said->anys[said->any_count++] = any;
}

static void said_free(Said *said) {
    for (size_t index = 0; index < said->fact_count; index++) {
        words_free(&said->facts[index]);
    }
    for (uint32_t index = 0; index < said->any_count; index++) {
        for (uint32_t each = 0; each < said->anys[index].count; each++) {
            said_free(&said->anys[index].alternatives[each]);
        }
        free(said->anys[index].alternatives);
    }
    free(said->facts);
    free(said->anys);
    *said = (Said){0};
}

// Adds nodes for the steps of a path after its first: they are numbered from `next` on, and the
// last of their arcs leads to `end`.
static void add_steps(Words *fact, const Words *path, uint32_t next, uint32_t end) {
    for (size_t step = 1; step < path->count; step++) {
        words_add(fact, 1);
        words_add(fact, path->at[step]);
        words_add(fact, step + 1 < path->count ? ++next : end);
    }
}

// A path from the root leads to a node with the given head: 0, or an atom.
static void say_reached(Said *said, const Words *path, uint32_t head) {
    Words fact = {0};
    uint32_t end = (uint32_t)path->count;
    words_add(&fact, end + 1);
    if (end > 0) {
        words_add(&fact, 1);
        words_add(&fact, path->at[0]);
        words_add(&fact, 1);
        add_steps(&fact, path, 1, end);
    }
    words_add(&fact, head);
    add_fact(said, fact);
}

// A path from the root that is not empty leads back to it.
static void say_loop(Said *said, const Words *path) {
    Words fact = {0};
    words_add(&fact, (uint32_t)path->count);
    words_add(&fact, 1);
    words_add(&fact, path->at[0]);
    words_add(&fact, path->count > 1 ? 1 : 0);
    add_steps(&fact, path, 1, 0);
    add_fact(said, fact);
}

// Two paths from the root that are not empty lead to one node. If both begin with one feature, the
// root of the fact has two arcs of it: merging takes its arcs one by one.
static void say_meeting(Said *said, const Words *left, const Words *right) {
    Words fact = {0};
    uint32_t second = (uint32_t)left->count;
    uint32_t end = second + (uint32_t)right->count - 1;
    words_add(&fact, end + 1);
    words_add(&fact, 2);
    words_add(&fact, left->at[0]);
    words_add(&fact, left->count > 1 ? 1 : end);
    words_add(&fact, right->at[0]);
    words_add(&fact, right->count > 1 ? second : end);
    add_steps(&fact, left, 1, end);
    add_steps(&fact, right, second, end);
    words_add(&fact, 0);
    add_fact(said, fact);
}

static void say_equal(Said *said, const Words *left, const Words *right) {
    if (left->count > 0 && right->count > 0) {
        say_meeting(said, left, right);
    } else if (left->count + right->count > 0) {
        say_loop(said, left->count > 0 ? left : right);
    }
}

// The path from the root that a path from the node spoken of is.
static Words whole_path(const FormulaTree *tree, const Words *here, uint32_t path) {
    Words whole = {0};
    words_add_all(&whole, here->at, here->count);
    for (uint32_t step = tree->at[path].first; step != NO_FORMULA; step = tree->at[step].next) {
        words_add(&whole, tree->at[step].number);
    }
    return whole;
}

static void say_same(Said *said, const FormulaTree *tree, uint32_t same, const Words *here) {
    uint32_t first = tree->at[same].first;
    Words one = whole_path(tree, here, first);
    say_reached(said, &one, 0);
    for (uint32_t path = tree->at[first].next; path != NO_FORMULA; path = tree->at[path].next) {
        Words other = whole_path(tree, here, path);
        say_equal(said, &one, &other);
        words_free(&other);
    }
    words_free(&one);
}

// Merges the facts on the sheet, beginning with the graph that says nothing.
static bool merge_said(const Expecting *expecting, const Said *said) {
    static const uint32_t nothing[] = {1, 0};
    Pick pick = {0};
    pick_add(&pick, nothing);
    for (size_t index = 0; index < said->fact_count; index++) {
        pick_add(&pick, said->facts[index].at);
    }
    bool agree = !said->clash && sheet_merge_all(expecting->sheet, &pick);
    pick_free(&pick);
    return agree;
}

static Said said_under(const Expecting *expecting, uint32_t formula, const Words *here);

// The one alternative that is left, which is consumed, is said by the whole.
static void fold(Said *said, Said *alternative) {
    for (size_t index = 0; index < alternative->fact_count; index++) {
        add_fact(said, alternative->facts[index]);
    }
    for (uint32_t index = 0; index < alternative->any_count; index++) {
        add_any(said, alternative->anys[index]);
    }
    free(alternative->facts);
    free(alternative->anys);
}

static void say_any(const Expecting *expecting, Said *said, uint32_t any, const Words *here) {
    const Formula *formulas = expecting->tree->at;
    SaidAny left = {0};
    for (uint32_t part = formulas[any].first; part != NO_FORMULA; part = formulas[part].next) {
        Said alternative = said_under(expecting, part, here);
        if (!merge_said(expecting, &alternative)) {
            said_free(&alternative);
            continue;
        }
        left.alternatives = resized(left.alternatives, (size_t)left.count + 1, sizeof alternative);
        left.alternatives[left.count++] = alternative;
    }
    if (left.count > 1) {
        add_any(said, left);
        return;
    }
    said->clash |= left.count == 0;
    if (left.count == 1) {
        fold(said, &left.alternatives[0]);
    }
    free(left.alternatives);
}

static void say(const Expecting *expecting, Said *said, uint32_t formula, Words *here) {
    const Formula *formulas = expecting->tree->at;
    switch (formulas[formula].kind) {
    case FORMULA_TOP:
        said->clash = true;
        break;
    case FORMULA_ATOM:
        say_reached(said, here, FEATURE_END + formulas[formula].number);
        break;
    case FORMULA_SAME:
        say_same(said, expecting->tree, formula, here);
        break;
    case FORMULA_ANY:
        say_any(expecting, said, formula, here);
        break;
    case FORMULA_AT:
        words_add(here, formulas[formula].number);
        say_reached(said, here, 0);
        say(expecting, said, formulas[formula].first, here);
        here->count--;
        break;
    case FORMULA_ALL:
        for (uint32_t part = formulas[formula].first; part != NO_FORMULA;
             part = formulas[part].next) {
            say(expecting, said, part, here);
        }
        break;
    default:
        break;
    }
}

// What a formula says that stands under a path; that the path can be followed is part of it.
static Said said_under(const Expecting *expecting, uint32_t formula, const Words *here) {
    Said said = {0};
    Words path = {0};
    words_add_all(&path, here->at, here->count);
    say_reached(&said, &path, 0);
    say(expecting, &said, formula, &path);
    words_free(&path);
    return said;
}

static void write_said(const Expecting *expecting, const Said *said, Words *words) {
    merge_said(expecting, said);
    sheet_write(expecting->sheet, words);
    words_add(words, said->any_count);
    for (uint32_t index = 0; index < said->any_count; index++) {
        words_add(words, said->anys[index].count);
        for (uint32_t each = 0; each < said->anys[index].count; each++) {
            write_said(expecting, &said->anys[index].alternatives[each], words);
        }
    }
}

bool formula_expect(Sheet *sheet, const FormulaTree *tree, uint32_t formula, Words *expected) {
    Expecting expecting = {sheet, tree};
    Words root = {0};
    Said said = said_under(&expecting, formula, &root);
    bool stands = merge_said(&expecting, &said);
    if (stands) {
        write_said(&expecting, &said, expected);
    }
    said_free(&said);
    return stands;
}
