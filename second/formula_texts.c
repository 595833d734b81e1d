// Seeded texts, so mixed that every number comes back often.
#include "formula_texts.h"

#include "formula_shapes.h"
#include "formula_spell.h"

#include <string.h>

// The formula as a text, mostly without spaces.
static Bytes spelt(Random *random, const FormulaTree *tree, uint32_t formula) {
    Spelling spelling = formula_spell(random, tree, formula);
    size_t spaces = 0;
    if (random_one_in(random, 3)) {
        spaces = random_below(random, (uint32_t)spelling.gaps.count + 2);
    }
    Bytes text = spelling_spaced(random, &spelling, spaces);
    spelling_free(&spelling);
    return text;
}

// A formula together with what clashes by itself.
static uint32_t with_clash(Random *random, FormulaTree *tree, uint32_t formula) {
    uint32_t clash = random_clash(random, tree, random_vocabulary(random));
    return random_one_in(random, 2) ? both_formulas(tree, formula, clash)
                                    : both_formulas(tree, clash, formula);
}

// About 1,024 words, or many more.
static uint32_t random_large(Random *random, FormulaTree *tree) {
    uint32_t words = 1018 + random_below(random, 14);
    if (random_one_in(random, 3)) {
        words = 1024 + random_below(random, 2);
    } else if (random_one_in(random, 6)) {
        words = 1500 + random_below(random, 3000);
    }
    return random_of_words(random, tree, words);
}

static Bytes random_usual_text(Random *random) {
    FormulaTree tree = {0};
    uint32_t formula;
    uint32_t kind = random_below(random, 100);
    if (kind < 8) {
        uint32_t levels = DEEPEST + random_below(random, 3);
        formula = random_nested(random, &tree, levels);
    } else if (kind < 18) {
        formula = random_large(random, &tree);
    } else {
        formula = random_shape(random, &tree);
    }
    if (random_one_in(random, 16)) {
        formula = with_clash(random, &tree, formula);
    }
    Bytes text = spelt(random, &tree, formula);
    tree_free(&tree);
    return text;
}

// A text of so many bytes; spaces between the signs make it as long as that.
static Bytes random_text_of(Random *random, size_t bytes) {
    FormulaTree tree = {0};
    uint32_t formula = random_shape(random, &tree);
    formula = both_formulas(&tree, formula, random_shape(random, &tree));
    Spelling spelling = formula_spell(random, &tree, formula);
    size_t own = spelling.text.count;
    Bytes text = spelling_spaced(random, &spelling, own < bytes ? bytes - own : 0);
    spelling_free(&spelling);
    tree_free(&tree);
    return text;
}

// A text in which one piece stands many times.
typedef struct {
    const char *before;
    const char *piece;
    const char *between;
    const char *after;
} Pattern;

static const Pattern patterns[] = {
    {"", "(", "", ""}, // these four only begin a formula
    {"", "f0:", "", ""},
    {"", "f1:(", "", ""},
    {"", "(a0|", "", ""},
    {"", "f0:", "", "a0"},
    {"", "NIL", "&", ""},
    {"", "a0", "|", ""},
    {"", "TOP", "|", "|a0"},
    {"", "TOP", "|", ""},
    {"", "(a0|TOP)", "&", ""},
    {"", "(NIL|TOP)", "|", ""},
    {"", "((a0|TOP)|TOP)", "&", ""},
    {"a0|", "(TOP|(TOP|f1:a0))", "|", ""},
    {"[<", "f1", "", ">,<>]&[<f1f1>,<>]"},
    {"[<", "f1 ", "", ">]&TOP"},
    {"[<>", ",<f1>", "", "]"},
    {"", "[<f1>,<f2>]", "&", ""},
    {"f1:f2:f3:(", "a0", "|", "|TOP)"},
    {"(", "f1:a0", "&", ")&f1:a1"},
};

enum { PATTERNS = sizeof patterns / sizeof *patterns };

static void add(Bytes *text, const char *piece) {
    bytes_add_all(text, piece, strlen(piece));
}

// A pattern that takes so many bytes, or nearly, or fewer.
static Bytes random_repeated_piece(Random *random, size_t bytes) {
    const Pattern *pattern = &patterns[random_below(random, PATTERNS)];
    Bytes text = {0};
    if (random_one_in(random, 3)) {
        bytes = random_below(random, (uint32_t)bytes);
    }
    add(&text, pattern->before);
    add(&text, pattern->piece);
    while (text.count + strlen(pattern->after) < bytes) {
        add(&text, pattern->between);
        add(&text, pattern->piece);
    }
    add(&text, pattern->after);
    return text;
}

// A formula in so many parentheses that it takes so many bytes, or nearly.
static Bytes random_enclosed(Random *random, size_t bytes) {
    Bytes inner = random_usual_text(random);
    Bytes text = {0};
    size_t times = inner.count < bytes ? (bytes - inner.count) / 2 : 0;
    for (size_t time = 0; time < times; time++) {
        add(&text, "(");
    }
    bytes_add_all(&text, inner.at, inner.count);
    for (size_t time = 0; time < times; time++) {
        add(&text, ")");
    }
    bytes_free(&inner);
    return text;
}

// About 4,096 bytes, or many more.
static Bytes random_long_text(Random *random) {
    size_t bytes = 4094 + random_below(random, 5);
    if (random_one_in(random, 8)) {
        bytes = 4097 + random_below(random, 400);
    }
    uint32_t kind = random_below(random, 8);
    if (kind < 2) {
        return random_repeated_piece(random, bytes);
    }
    return kind == 2 ? random_enclosed(random, bytes) : random_text_of(random, bytes);
}

// The room is as large as any result, just enough, one word short or something else.
static uint32_t random_room(Random *random, const Bytes *text) {
    uint32_t kind = random_below(random, 10);
    if (kind < 4) {
        return LONGEST_DESCRIBED;
    }
    if (kind == 4) {
        return random_below(random, 40);
    }
    FormulaOutcome outcome = formula(text->at, text->count, 0);
    if (outcome.told == 0 || outcome.number == FORMULA_BAD) {
        return random_below(random, 2 * LONGEST_DESCRIBED);
    }
    return outcome.told - (kind < 7) + (kind == 9);
}

FormulaCall random_formula_call(Random *random) {
    FormulaCall call = {0};
    bool is_long = random_one_in(random, 16);
    call.text = is_long ? random_long_text(random) : random_usual_text(random);
    if (random_below(random, 10) < 3) {
        damage_text(random, &call.text);
    }
    call.room = random_room(random, &call.text);
    return call;
}

void print_formula_call(Random *random) {
    FormulaCall call = random_formula_call(random);
    formula_call_print(&call, stdout);
    formula_call_free(&call);
}
