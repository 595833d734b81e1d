// The self-check of formulas: their descriptions against plain enumeration on small random cases,
// and the byte of a bad text against all ways to cut it.
#include "check.h"

#include "call.h"
#include "formula.h"
#include "formula_cuts.h"
#include "formula_expect.h"
#include "formula_shapes.h"
#include "formula_spell.h"
#include "formula_text.h"
#include "formula_texts.h"
#include "structures.h"

#include <inttypes.h>
#include <string.h>

// What the check works with, and what it has counted.
typedef struct {
    Random random;
    Structures structures;
    Sheet sheet;
    const char *failure; // what went wrong first, or null
    Bytes text;          // what was judged last
    uint64_t results;
    uint64_t clashes;
    uint64_t satisfied; // pairs of a formula and a structure
    uint64_t good_texts;
    uint64_t bad_texts;
} FormulaCheck;

static void demand(FormulaCheck *check, bool holds, const char *failure) {
    if (!holds && check->failure == NULL) {
        check->failure = failure;
    }
}

static bool words_equal(const Words *left, const Words *right) {
    return left->count == right->count &&
           (left->count == 0 || memcmp(left->at, right->at, left->count * sizeof *left->at) == 0);
}

// Spells a formula with random spaces.
static void spell(FormulaCheck *check, const FormulaTree *tree, uint32_t whole) {
    Spelling spelling = formula_spell(&check->random, tree, whole);
    uint32_t spaces = random_below(&check->random, 6);
    bytes_free(&check->text);
    check->text = spelling_spaced(&check->random, &spelling, spaces);
    spelling_free(&spelling);
}

static FormulaOutcome outcome_of(FormulaCheck *check, const FormulaTree *tree, uint32_t whole,
                                 size_t room) {
    spell(check, tree, whole);
    return formula(check->text.at, check->text.count, room);
}

// The number and the words are those of plain enumeration.
static void check_words(FormulaCheck *check, const FormulaTree *tree, uint32_t whole,
                        const FormulaOutcome *outcome) {
    Words expected = {0};
    bool stands = formula_expect(&check->sheet, tree, whole, &expected);
    if (expected.count > LONGEST_DESCRIBED) {
        demand(check, outcome->number == FORMULA_LARGE, "a large description is not refused");
    } else if (stands) {
        demand(check, outcome->number == 0 && outcome->told == expected.count,
               "a formula that stands is refused, or has another length");
        demand(check, words_equal(&expected, &outcome->result), "the description differs");
    } else {
        demand(check, outcome->number == FORMULA_CLASH && outcome->told == 0,
               "a formula that clashes is described");
    }
    words_free(&expected);
}

// A structure satisfies the description exactly when the formula holds of its root; none does on a
// clash.
static void check_structures(FormulaCheck *check, const FormulaTree *tree, uint32_t whole,
                             const FormulaOutcome *outcome) {
    for (size_t index = 0; index < check->structures.count; index++) {
        const Sheet *structure = &check->structures.sheets[index];
        bool satisfies = outcome->number == 0 && sheet_satisfies(structure, outcome->result.at);
        check->satisfied += satisfies;
        demand(check, satisfies == formula_holds(tree, whole, structure, 0),
               "a structure satisfies the description and not the formula, or the other way");
    }
}

// A result is well formed, and refused when the room is a word short.
static void check_result(FormulaCheck *check, const FormulaTree *tree, uint32_t whole,
                         const FormulaOutcome *outcome) {
    Description description;
    bool well_formed = description_read(outcome->result.at, outcome->result.count, &description);
    demand(check, well_formed, "the description is malformed");
    if (well_formed) {
        description_free(&description);
    }
    FormulaOutcome tight = outcome_of(check, tree, whole, outcome->told - 1);
    demand(check,
           tight.number == FORMULA_NO_ROOM && tight.told == outcome->told &&
               tight.result.count == 0,
           "one word short is not refused");
    words_free(&tight.result);
}

// All that concerns one formula; false when it was not described.
static bool check_formula(FormulaCheck *check, const FormulaTree *tree, uint32_t whole,
                          Words *described) {
    FormulaOutcome outcome = outcome_of(check, tree, whole, LONGEST_DESCRIBED);
    check_words(check, tree, whole, &outcome);
    check_structures(check, tree, whole, &outcome);
    if (outcome.number == 0) {
        check_result(check, tree, whole, &outcome);
    }
    check->results += outcome.number == 0;
    check->clashes += outcome.number == FORMULA_CLASH;
    *described = outcome.result;
    return outcome.number == 0;
}

// Two formulas parted by & are described as their descriptions are joined in mode 0.
static void check_both(FormulaCheck *check, const FormulaTree *tree, uint32_t both,
                       const Words *first, const Words *second) {
    FormulaOutcome outcome = outcome_of(check, tree, both, LONGEST_DESCRIBED);
    Outcome joined = unify(MODE_JOIN, first->at, first->count, second->at, second->count,
                           LONGEST_DESCRIBED, WORKING_NEEDED);
    demand(check, (joined.number == CLASH) == (outcome.number == FORMULA_CLASH),
           "two formulas clash and their descriptions do not, or the other way");
    demand(check, (joined.number == RESULT_LONG) == (outcome.number == FORMULA_LARGE),
           "two formulas are longer than their descriptions joined");
    demand(check, words_equal(&joined.result, &outcome.result),
           "two formulas differ from their descriptions joined");
    words_free(&joined.result);
    words_free(&outcome.result);
}

static uint32_t random_small(FormulaCheck *check, FormulaTree *tree) {
    Random *random = &check->random;
    if (random_one_in(random, 4)) {
        return random_shape(random, tree);
    }
    FormulaSize size = {{STRUCTURE_FEATURE, 2 + random_one_in(random, 6), STRUCTURE_ATOM, 2}, 0, 0};
    size.deepest = 1 + random_below(random, 4);
    size.nesting = random_below(random, DEEPEST + 1);
    return random_formula(random, tree, size);
}

// Two formulas, and both together.
static void check_two(FormulaCheck *check) {
    FormulaTree tree = {0};
    Words first;
    Words second;
    uint32_t one = random_small(check, &tree);
    uint32_t other = random_small(check, &tree);
    bool stand = check_formula(check, &tree, one, &first);
    stand &= check_formula(check, &tree, other, &second);
    uint32_t both = both_formulas(&tree, one, other);
    if (stand) {
        check_both(check, &tree, both, &first, &second);
    } else {
        FormulaOutcome outcome = outcome_of(check, &tree, both, LONGEST_DESCRIBED);
        demand(check, outcome.number != 0, "a formula stands of which a conjunct does not");
        words_free(&outcome.result);
    }
    words_free(&first);
    words_free(&second);
    tree_free(&tree);
}

// The text is judged as by all ways to cut it.
static void check_text(FormulaCheck *check) {
    const Bytes *text = &check->text;
    size_t byte;
    bool reads = formula_reads(text->at, text->count, &byte);
    demand(check, reads == cuts_read(text->at, text->count), "a text is wrongly a formula or none");
    demand(check, cuts_start(text->at, byte), "a text cannot go on before its byte");
    demand(check, byte == text->count || !cuts_start(text->at, byte + 1),
           "a text can go on at its byte");
    check->good_texts += reads;
    check->bad_texts += !reads;
}

// A small formula, whole, cut short or damaged.
static void check_short(FormulaCheck *check) {
    Random *random = &check->random;
    FormulaTree tree = {0};
    FormulaSize size = {{0, 2, 0, 2}, random_below(random, 2), 1};
    spell(check, &tree, random_formula(random, &tree, size));
    tree_free(&tree);
    if (random_one_in(random, 2)) {
        damage_text(random, &check->text);
    }
    if (check->text.count > LONGEST_CUT) {
        check->text.count = random_below(random, LONGEST_CUT + 1);
    }
    check_text(check);
}

static void print_failure(const FormulaCheck *check) {
    FormulaCall call = {LONGEST_DESCRIBED, check->text};
    printf("difference: %s\n", check->failure);
    formula_call_print(&call, stdout);
}

int run_check_formulas(uint64_t seed, uint64_t count) {
    FormulaCheck check = {.random = {seed}, .structures = all_structures()};
    sheet_open(&check.sheet, MOST_CELLS);
    for (uint64_t done = 0; done < count && check.failure == NULL; done += 2) {
        check_two(&check);
        if (check.failure == NULL) {
            check_short(&check);
        }
    }
    printf("self-check seed %" PRIu64 ": %" PRIu64
           " formulas over %zu structures described, %" PRIu64 " clashes, satisfied %" PRIu64
           " times; %" PRIu64 " short texts good, %" PRIu64 " bad\n",
           seed, check.results, check.structures.count, check.clashes, check.satisfied,
           check.good_texts, check.bad_texts);
    if (check.failure != NULL) {
        print_failure(&check);
    }
    bytes_free(&check.text);
    sheet_free(&check.sheet);
    structures_free(&check.structures);
    return check.failure == NULL ? 0 : 1;
}
