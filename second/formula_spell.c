// Spelling formulas: each sign is added by itself, so that the gaps are known.
#include "formula_spell.h"

#include <inttypes.h>
#include <stdio.h>
#include <stdlib.h>
#include <string.h>

// What may stand in a place without parentheses: any formula, no disjunction, units alone.
typedef enum { PLACE_WHOLE, PLACE_ALTERNATIVE, PLACE_UNIT } Place;

enum { SURPLUS_ONE_IN = 24 };

typedef struct {
    Random *random;
    const FormulaTree *tree;
    Spelling spelling;
} Speller;

static void add_sign(Speller *speller, const char *sign) {
    Spelling *spelling = &speller->spelling;
    if (spelling->text.count > 0) {
        words_add(&spelling->gaps, (uint32_t)spelling->text.count);
    }
    bytes_add_all(&spelling->text, sign, strlen(sign));
}

static void add_numbered(Speller *speller, char letter, uint32_t number) {
    char sign[16];
    snprintf(sign, sizeof sign, "%c%" PRIu32, letter, number);
    add_sign(speller, sign);
}

static void spell(Speller *speller, uint32_t formula, Place place);

// Spells the parts of a formula in places of one kind, parted by a sign.
static void spell_parts(Speller *speller, const Formula *whole, const char *sign, Place place) {
    const Formula *formulas = speller->tree->at;
    for (uint32_t part = whole->first; part != NO_FORMULA; part = formulas[part].next) {
        if (part != whole->first && sign != NULL) {
            add_sign(speller, sign);
        }
        spell(speller, part, place);
    }
}

static void spell_between(Speller *speller, const Formula *whole, const char *opening,
                          const char *sign, const char *closing) {
    add_sign(speller, opening);
    spell_parts(speller, whole, sign, PLACE_UNIT);
    add_sign(speller, closing);
}

static void spell_bare(Speller *speller, const Formula *formula) {
    switch (formula->kind) {
    case FORMULA_NIL:
        add_sign(speller, "NIL");
        break;
    case FORMULA_TOP:
        add_sign(speller, "TOP");
        break;
    case FORMULA_ATOM:
        add_numbered(speller, 'a', formula->number);
        break;
    case FORMULA_AT:
        add_numbered(speller, 'f', formula->number);
        add_sign(speller, ":");
        spell_parts(speller, formula, NULL, PLACE_UNIT);
        break;
    case FORMULA_SAME:
        spell_between(speller, formula, "[", ",", "]");
        break;
    case FORMULA_PATH:
        spell_between(speller, formula, "<", NULL, ">");
        break;
    case FORMULA_STEP:
        add_numbered(speller, 'f', formula->number);
        break;
    case FORMULA_ALL:
        spell_parts(speller, formula, "&", PLACE_UNIT);
        break;
    case FORMULA_ANY:
        spell_parts(speller, formula, "|", PLACE_ALTERNATIVE);
        break;
    }
}

static bool needs_parentheses(FormulaKind kind, Place place) {
    return (kind == FORMULA_ANY && place != PLACE_WHOLE) ||
           (kind == FORMULA_ALL && place == PLACE_UNIT);
}

static bool may_have_parentheses(FormulaKind kind) {
    return kind != FORMULA_PATH && kind != FORMULA_STEP;
}

static void spell(Speller *speller, uint32_t formula, Place place) {
    const Formula *spelt = &speller->tree->at[formula];
    bool surplus =
        may_have_parentheses(spelt->kind) && random_one_in(speller->random, SURPLUS_ONE_IN);
    bool enclosed = surplus || needs_parentheses(spelt->kind, place);
    if (enclosed) {
        add_sign(speller, "(");
    }
    spell_bare(speller, spelt);
    if (enclosed) {
        add_sign(speller, ")");
    }
}

Spelling formula_spell(Random *random, const FormulaTree *tree, uint32_t formula) {
    Speller speller = {.random = random, .tree = tree};
    spell(&speller, formula, PLACE_WHOLE);
    return speller.spelling;
}

void spelling_free(Spelling *spelling) {
    bytes_free(&spelling->text);
    words_free(&spelling->gaps);
}

// How many spaces each gap gets.
static uint32_t *drawn_spaces(Random *random, size_t gaps, size_t spaces) {
    uint32_t *drawn = zeroed(gaps, sizeof *drawn);
    for (size_t index = 0; gaps > 0 && index < spaces; index++) {
        drawn[random_below(random, (uint32_t)gaps)]++;
    }
    return drawn;
}

Bytes spelling_spaced(Random *random, const Spelling *spelling, size_t spaces) {
    const Words *gaps = &spelling->gaps;
    uint32_t *drawn = drawn_spaces(random, gaps->count, spaces);
    Bytes text = {0};
    size_t taken = 0;
    for (size_t gap = 0; gap < gaps->count; gap++) {
        bytes_add_all(&text, spelling->text.at + taken, gaps->at[gap] - taken);
        taken = gaps->at[gap];
        for (uint32_t space = 0; space < drawn[gap]; space++) {
            bytes_add(&text, ' ');
        }
    }
    bytes_add_all(&text, spelling->text.at + taken, spelling->text.count - taken);
    free(drawn);
    return text;
}
