// Known formulas: those of request One, the descriptions of document 01 typed as formulas, and
// those whose answer is easily got wrong.
#include "check.h"

#include "bytes.h"
#include "call.h"
#include "formula.h"
#include "known.h"

#include <string.h>

#define A12 "2 1 1 1 65548 0 "
#define F1 "2 1 1 1 0 "

typedef struct {
    const char *text;
    uint32_t room;
    uint32_t number;
    uint32_t told;      // where it is not the count of the words
    const char *result; // the words after 0
} KnownFormula;

static const KnownFormula cases[] = {
    {"NIL", 1024, 0, 0, N},
    {"TOP", 1024, 22, 0, ""},
    {"a10", 1024, 0, 0, "1 65546 0"},
    {"f1:a10", 1024, 0, 0, A},
    {"f1:a11", 1024, 0, 0, B},
    {"f2:a10", 1024, 0, 0, C},
    {"f2:a11", 1024, 0, 0, D},
    {"[<f1>,<f2>]", 1024, 0, 0, E},
    {"f1:a10|f1:a11", 1024, 0, 0, P},
    {"f1:a10|f1:a10&f2:a10", 1024, 0, 0, S},
    {"[<f1>,<>]", 1024, 0, 0, L},
    {"[<>,<f1>]", 1024, 0, 0, L},
    {"f1:(a10|a11)", 1024, 0, 0, F1 "1 2 " A B},
    {"f1:a10&f1:(a11|a12)", 1024, 0, 0, "2 1 1 1 65546 1 2 " B A12},
    {"(f1:a10&f1:a11)|f1:a12", 1024, 0, 0, A12},
    // the arcs of all features before it, in each alternative however deep
    {"f1:(f2:(a1|a2)|NIL)", 1024, 0, 0,
     F1 "1 2 3 1 1 1 1 2 2 0 1 2 3 1 1 1 1 2 2 65537 0 3 1 1 1 1 2 2 65538 0 " F1 "0"},
    {"f1:(a10|(a11|a12))", 1024, 0, 0, F1 "1 2 " A F1 "1 2 " B A12},
    // an alternative has nothing of what stands beside its disjunction
    {"[<f1>,<f2>]&f1:(a10|a11)", 1024, 0, 0, "2 2 1 1 2 1 0 1 2 " A B},
    // a path under a feature starts there
    {"f1:[<f2>,<>]", 1024, 0, 0, "2 1 1 1 1 2 1 0"},
    {"[<f1>]&f1:[<>]", 1024, 0, 0, F1 "0"},
    {"f1:f2:a10", 1024, 0, 0, "3 1 1 1 1 2 2 65546 0"},
    {"[<f1f2>]", 1024, 0, 0, "3 1 1 1 1 2 2 0 0"},
    {"[<f1 f1>,<>]&[<f1 f1 f1>,<>]", 1024, 0, 0, L},
    {"[<f1>,<f2>]&f1:a10&f2:a11", 1024, 22, 0, ""},
    // a colon before &, & before |
    {"f1:a10&f2:a10", 1024, 0, 0, A_AND_C},
    {"f1:(a10&f2:a10)", 1024, 22, 0, ""},
    {"a1|a2&a3", 1024, 0, 0, "1 65537 0"},
    {"(a1|a2)&a3", 1024, 0, 0, "1 65539 1 2 1 65537 0 1 65538 0"},
    // one disjunction of three, and two of two
    {"a1|a2|a3", 1024, 0, 0, "1 0 1 3 1 65537 0 1 65538 0 1 65539 0"},
    {"(a1|a2)|a3", 1024, 0, 0, "1 0 1 2 1 0 1 2 1 65537 0 1 65538 0 1 65539 0"},
    // left out and folded, in place
    {"NIL|(TOP|TOP)", 1024, 0, 0, N},
    {"NIL&(TOP|TOP)", 1024, 22, 0, ""},
    {"a10&(f1:NIL|TOP)", 1024, 22, 0, ""},
    {"(a10&(f1:NIL|TOP))|a11", 1024, 0, 0, "1 65547 0"},
    {"(NIL|f3:a1)&(f1:a10&(NIL|f4:a1)|TOP)&(NIL|f5:a1)", 1024, 0, 0,
     "2 1 1 1 65546 3 2 1 0 0 2 1 3 1 65537 0 2 1 0 0 2 1 4 1 65537 0 2 1 0 0 2 1 5 1 65537 0"},
    // nested in the text, whether left out, folded or neither
    {"(((a1|a2)|a3)|a4)|a5", 1024, 0, 0,
     "1 0 1 2 1 0 1 2 1 0 1 2 1 0 1 2 1 65537 0 1 65538 0 1 65539 0 1 65540 0 1 65541 0"},
    {"((((a1|a2)|a3)|a4)|a5)|a6", 1024, 21, 0, ""},
    {"f1:(NIL&(NIL|f2:(((a1|a2)|a3)|a4))|a5)", 1024, 21, 0, ""},
    {"TOP&(((((a1|a2)|a3)|a4)|a5)|a6)", 1024, 21, 0, ""},
    {"a1|(TOP|(TOP|(TOP|(TOP|a2))))", 1024, 21, 0, ""},
    {"a1|TOP|(((((TOP)))))", 1024, 0, 0, "1 65537 0"},
    // spaces
    {"( f1 : [ < f1  f2 > , < > ]   & NIL )", 1024, 0, 0, "3 1 1 1 1 1 2 1 2 1 0"},
    {"f65535:a65535", 1024, 0, 0, "2 1 65535 1 131071 0"},
    {"f0:a0", 1024, 0, 0, "2 1 0 1 65536 0"},
    // the room
    {"f1:(a10|a11)", 19, 0, 0, F1 "1 2 " A B},
    {"f1:(a10|a11)", 18, 24, 19, ""},
    {"NIL", 0, 24, 3, ""},
    {"TOP", 0, 22, 0, ""},
    // bad texts
    {"", 1024, 20, 0, ""},
    {" ", 1024, 20, 0, ""},
    {" NIL", 1024, 20, 0, ""},
    {"NIL ", 1024, 20, 4, ""},
    {"NIL\n", 1024, 20, 3, ""},
    {"NIL\t&NIL", 1024, 20, 3, ""},
    {"NIL&\xC3", 1024, 20, 4, ""},
    {"N IL", 1024, 20, 1, ""},
    {"TO", 1024, 20, 2, ""},
    {"[]", 1024, 20, 1, ""},
    {"[<f1>,]", 1024, 20, 6, ""},
    {"<f1>", 1024, 20, 0, ""},
    {"[<f1,f2>]", 1024, 20, 4, ""},
    {"()", 1024, 20, 1, ""},
    {"(a1", 1024, 20, 3, ""},
    {"a1)", 1024, 20, 2, ""},
    {"a1 a2", 1024, 20, 3, ""},
    {"a1a2", 1024, 20, 2, ""},
    {"f1", 1024, 20, 2, ""},
    {"f1 :a1&f2 a1", 1024, 20, 10, ""},
    {"a65535", 1024, 0, 0, "1 131071 0"},
    {"a65536", 1024, 20, 5, ""},
    {"a6554", 1024, 0, 0, "1 72090 0"},
    {"a65540", 1024, 20, 5, ""},
    {"a70000", 1024, 20, 5, ""},
    {"a00", 1024, 20, 2, ""},
    {"f01:a1", 1024, 20, 2, ""},
    {"a 1", 1024, 20, 1, ""},
    {"f 1:a1", 1024, 20, 1, ""},
    {"a-1", 1024, 20, 1, ""},
};

enum { CASES = sizeof cases / sizeof *cases };

// Whether a text has the outcome; prints the difference otherwise.
static bool expect(const char *text, size_t length, size_t room, const FormulaOutcome *expected) {
    FormulaOutcome outcome = formula(text, length, room);
    const Words *result = &outcome.result;
    bool same = outcome.number == expected->number && outcome.told == expected->told &&
                result->count == expected->result.count &&
                (result->count == 0 ||
                 memcmp(result->at, expected->result.at, result->count * sizeof *result->at) == 0);
    if (!same) {
        printf("known formula %.*s: number %u told %u: ", length > 60 ? 60 : (int)length, text,
               (unsigned)outcome.number, (unsigned)outcome.told);
        words_print(result, stdout);
        putchar('\n');
    }
    words_free(&outcome.result);
    return same;
}

static bool known_holds(const KnownFormula *known) {
    FormulaOutcome expected = {known->number, known->told, words_from(known->result)};
    if (known->number == 0) {
        expected.told = (uint32_t)expected.result.count;
    }
    bool same = expect(known->text, strlen(known->text), known->room, &expected);
    words_free(&expected.result);
    return same;
}

static void add(Bytes *text, const char *piece, size_t times) {
    for (size_t time = 0; time < times; time++) {
        bytes_add_all(text, piece, strlen(piece));
    }
}

// A text, which is consumed, gets a number and a value, and after 0 these words.
static bool built_holds(Bytes text, uint32_t number, uint32_t told, const char *result) {
    FormulaOutcome expected = {number, told, words_from(result)};
    bool same = expect(text.at, text.count, LONGEST_DESCRIBED, &expected);
    words_free(&expected.result);
    bytes_free(&text);
    return same;
}

// The first piece so many times, the second, and the third so many times.
static Bytes around(const char *before, size_t times, const char *middle, const char *after,
                    size_t after_times) {
    Bytes text = {0};
    add(&text, before, times);
    add(&text, middle, 1);
    add(&text, after, after_times);
    return text;
}

// Features before as many alternatives, and what else is said.
static Bytes many_alternatives(size_t count, const char *more) {
    Bytes text = around("f1:", count, "(a0", "|a0", count - 1);
    add(&text, ")", 1);
    add(&text, more, 1);
    return text;
}

// Two loops of one feature, one a step longer than the other.
static Bytes two_loops(size_t steps) {
    Bytes text = around("", 0, "[<", "f1", steps);
    add(&text, ">,<>]&[<", 1);
    add(&text, "f1", steps - 1);
    add(&text, ">,<>]", 1);
    return text;
}

// Each of these features takes three words, and each of those that lead back takes two.
static bool words_hold(uint32_t features, uint32_t loops, uint32_t number, uint32_t told) {
    Bytes text = {0};
    add(&text, "NIL", 1);
    for (uint32_t feature = 0; feature < features + loops; feature++) {
        char piece[32];
        snprintf(piece, sizeof piece, feature < features ? "&f%u:NIL" : "&[<f%u>,<>]",
                 (unsigned)feature);
        add(&text, piece, 1);
    }
    FormulaOutcome outcome = formula(text.at, text.count, LONGEST_DESCRIBED);
    bool same = outcome.number == number && outcome.told == told;
    words_free(&outcome.result);
    bytes_free(&text);
    return same;
}

static bool built_hold(void) {
    bool same = built_holds(two_loops(700), 0, 5, L);
    same &= built_holds(many_alternatives(300, ""), 23, 0, "");
    same &= built_holds(many_alternatives(300, "&TOP"), 22, 0, "");
    same &= built_holds(around("(", 2047, "a0", ")", 2047), 0, 3, "1 65536 0");
    same &= built_holds(around("(", 4096, "", "", 0), 20, 4096, "");
    same &= built_holds(around("(", 4097, "", "", 0), 25, 0, "");
    same &= built_holds(around("(", 4096, "a", "", 0), 25, 0, "");
    same &= built_holds(around("NIL&", 1023, "a0", " ", 1), 20, 4095, "");
    same &= built_holds(around("NIL&", 1023, "f0:", "", 0), 20, 4095, "");
    same &= built_holds(around("NIL", 1, "", " ", 4090), 20, 4093, "");
    same &= built_holds(around("(NIL", 1, "", " ", 4091), 20, 4095, "");
    same &= built_holds(around("NIL&", 1023, "TOP", "", 0), 22, 0, "");
    same &= built_holds(around("NIL&", 1023, "NIL ", "", 0), 20, 4096, "");
    same &= words_hold(339, 2, 0, 1024);
    same &= words_hold(340, 1, 23, 0);
    return same;
}

int run_known_formulas(void) {
    bool all = true;
    for (size_t index = 0; index < CASES; index++) {
        all &= known_holds(&cases[index]);
    }
    all &= built_hold();
    printf("known: %d formulas of the table, 15 built by program: %s\n", (int)CASES,
           all ? "as request One says" : "DIFFERENT");
    return all ? 0 : 1;
}
