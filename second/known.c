// The known inputs of document 01, and the cases it wants run by program.
#include "check.h"

#include "call.h"
#include "known.h"
#include "shapes.h"

#include <stdlib.h>
#include <string.h>

enum { EVERY_MODE = -1, FIT = -2 };

// Feature 3 is atom 10, and two disjunctions are left with one alternative each: that feature 1 is
// atom 10, and that it is atom 11.
#define D_OF_3 "2 1 3 1 65547 0 "
#define TWO_FOLDS "2 1 3 1 65546 2 2 " A D_OF_3 "2 " B D_OF_3

typedef struct {
    const char *name;
    int mode;
    const char *first;
    const char *second;
    uint32_t room;
    uint32_t number;
    uint32_t length;
    uint32_t readings; // in mode 2; otherwise 0 is expected
    uint32_t node;     // after 6
    const char *result;
} Known;

static const Known cases[] = {
    {"1", 0, N, N, 2048, 0, 3, 0, 0, N},
    {"2", 0, A, C, 2048, 0, 9, 0, 0, A_AND_C},
    {"3", EVERY_MODE, A, B, 2048, 6, 0, 0, 1, ""},
    {"4", EVERY_MODE, E, A, 2048, 0, 8, 1, 0, "2 2 1 1 2 1 65546 0 "},
    {"5", 0, P, A, 2048, 0, 19, 0, 0, "2 1 1 1 65546 1 2 " A B},
    {"6", 1, P, A, 2048, 0, 6, 0, 0, A},
    {"7 quick", 1, P, S, 2048, 0, 32, 0, 0, "1 0 2 2 " A B "2 " A A_AND_C},
    {"7 full", 2, P, S, 2048, 0, 22, 2, 0, "2 1 1 1 65546 1 2 " A A_AND_C},
    {"8", EVERY_MODE, L, E, 2048, 0, 7, 1, 0, "1 2 1 0 2 0 0 "},
    {"9", EVERY_MODE, L, "1 65546 0 ", 2048, 6, 0, 0, 0, ""},
    {"10", 2, P, P, 2048, 0, 29, 2, 0, "1 0 2 2 " A B "2 " A B},
    {"11 one alternative", EVERY_MODE, "1 0 1 1 " A, N, 2048, 4, 0, 0, 0, ""},
    {"11 one alternative second", EVERY_MODE, N, "1 0 1 1 " A, 2048, 5, 0, 0, 0, ""},
    {"11 least atom", EVERY_MODE, "1 65536 0 ", N, 2048, 0, 3, 1, 0, "1 65536 0 "},
    {"11 head too large", EVERY_MODE, "1 131072 0 ", N, 2048, 4, 0, 0, 0, ""},
    {"meet example", 2, "1 0 2 2 " A B "2 " C D, E, 2048, 0, 34, 2, 0,
     "2 2 1 1 2 1 0 2 2 " A B "2 " C D},
    {"6 first of all", EVERY_MODE, "2 1 1 1 65546 1 2 " B B, B, 0, 6, 0, 0, 1, ""},
    {"6 at a node of the second", EVERY_MODE, E_AND_P, TWO_BELOW, 2048, 6, 0, 0, 5, ""},
    {"6 at a node of the first", EVERY_MODE, TWO_BELOW, E_AND_P, 2048, 6, 0, 0, 3, ""},
    {"10 is not asked for", 0, L, P, 2048, 0, 18, 0, 0, "1 1 1 0 1 2 " A B},
    {"10 quick", 1, L, P, 2048, 10, 0, 0, 0, ""},
    {"10 full", 2, L, P, 2048, 10, 0, 0, 0, ""},
    {"10 exchanged", 1, P, L, 2048, 10, 0, 0, 0, ""},
    {"10 by folding", 1, TWO_FOLDS, N, 2048, 10, 0, 0, 0, ""},
    {"10 by folding, full", 2, TWO_FOLDS, N, 2048, 10, 0, 0, 0, ""},
    {"10 before 8", 1, L, P, 0, 10, 0, 0, 0, ""},
    {"11 is not asked for", 1, P, TWELVE_OR_THIRTEEN, 2048, 0, 29, 0, 0,
     "1 0 2 2 " A B "2 " TWELVE THIRTEEN},
    {"11", 2, P, TWELVE_OR_THIRTEEN, 2048, 11, 0, 0, 0, ""},
    {"11 before 8", 2, P, TWELVE_OR_THIRTEEN, 0, 11, 0, 0, 0, ""},
    {"exact room", 0, P, A, 19, 0, 19, 0, 0, "2 1 1 1 65546 1 2 " A B},
    {"one word short", 0, P, A, 18, 8, 19, 0, 0, ""},
    {"full exact room", 2, P, S, 22, 0, 22, 2, 0, "2 1 1 1 65546 1 2 " A A_AND_C},
    {"full one word short", 2, P, S, 21, 8, 22, 0, 0, ""},
    {"mode above 2", 3, "", "", 0, 1, 0, 0, 0, ""},
    {"empty first", EVERY_MODE, "", "", 2048, 4, 0, 0, 0, ""},
    {"empty second", EVERY_MODE, N, "", 2048, 5, 0, 0, 0, ""},
    {"fit holds", FIT, A, P, 0, 0, 0, 0, 0, ""},
    {"fit fails", FIT, C, P, 0, 6, 0, 0, 0, ""},
    {"fit with disjunctions", FIT, P, P, 0, 9, 0, 0, 0, ""},
    {"fit malformed structure", FIT, "0 ", "", 0, 4, 0, 0, 0, ""},
    {"fit malformed description", FIT, P, "", 0, 5, 0, 0, 0, ""},
    {"equal atoms are two nodes", FIT, A_AND_C, E, 0, 6, 0, 0, 0, ""},
};

Words words_from(const char *text) {
    Words words = {0};
    char *end = NULL;
    for (unsigned long word = strtoul(text, &end, 10); end != text;
         word = strtoul(text, &end, 10)) {
        words_add(&words, (uint32_t)word);
        text = end;
    }
    return words;
}

// Whether a call has the outcome; prints the difference otherwise.
static bool expect(const char *name, const Call *call, const Outcome *expected) {
    Outcome outcome = call_run(call);
    const Words *result = &outcome.result;
    bool same = outcome.number == expected->number && outcome.length == expected->length &&
                outcome.readings == expected->readings && outcome.node == expected->node &&
                result->count == expected->result.count &&
                (result->count == 0 ||
                 memcmp(result->at, expected->result.at, result->count * sizeof *result->at) == 0);
    if (!same) {
        printf("known case %s, mode %u: number %u words %u readings %u node %u: ", name,
               (unsigned)call->mode, (unsigned)outcome.number, (unsigned)outcome.length,
               (unsigned)outcome.readings, (unsigned)outcome.node);
        words_print(result, stdout);
        putchar('\n');
    }
    words_free(&outcome.result);
    return same;
}

// One case in one mode.
static bool known_in_mode(const Known *known, uint32_t mode) {
    Call call = {.is_fit = known->mode == FIT,
                 .first = words_from(known->first),
                 .second = words_from(known->second)};
    if (!call.is_fit) {
        call.mode = mode;
        call.room = known->room;
        call.work = WORKING_NEEDED;
    }
    Outcome expected = {known->number, known->length, mode == MODE_FULL ? known->readings : 0,
                        known->node, words_from(known->result)};
    bool same = expect(known->name, &call, &expected);
    words_free(&expected.result);
    call_free(&call);
    return same;
}

static bool known_holds(const Known *known) {
    if (known->mode != EVERY_MODE) {
        return known_in_mode(known, known->mode == FIT ? 0 : (uint32_t)known->mode);
    }
    return known_in_mode(known, MODE_JOIN) && known_in_mode(known, MODE_QUICK) &&
           known_in_mode(known, MODE_FULL);
}

// So many disjunctions of two independent alternatives, after a definite graph.
static Words free_disjunctions(const char *graph, uint32_t count) {
    Words words = words_from(graph);
    words_add(&words, count);
    for (uint32_t feature = 0; feature < count; feature++) {
        const uint32_t both[] = {2, 2, 1, feature, 1, 65546, 0, 2, 1, feature, 1, 65547, 0};
        words_add_all(&words, both, 13);
    }
    return words;
}

// The same after a graph that says nothing, and two disjunctions more, which do not agree.
static Words free_and_no_choice(uint32_t count) {
    Words words = free_disjunctions("1 0", count);
    Words more = words_from("2 " A B "2 " TWELVE THIRTEEN);
    words.at[2] += 2;
    words_add_all(&words, more.at, more.count);
    words_free(&more);
    return words;
}

// Alternatives nested so deep.
static Words nested(uint32_t depth) {
    Words words = words_from("1 0 0");
    const uint32_t before[] = {1, 0, 1, 2, 1, 0, 0};
    for (uint32_t level = 0; level < depth; level++) {
        Words outer = {0};
        words_add_all(&outer, before, 7);
        words_add_all(&outer, words.at, words.count);
        words_free(&words);
        words = outer;
    }
    return words;
}

static Words of_length(uint32_t length) {
    Random random = {length};
    Description description = random_of_length(&random, length);
    Words words = {0};
    description_write(&description, &words);
    description_free(&description);
    return words;
}

// Words, which are consumed, first and then second, with N: the number is `first` or `second`
// and on success the result is the words themselves.
static bool with_nothing(const char *name, uint32_t mode, Words words, uint32_t first,
                         uint32_t second, uint32_t readings) {
    Call call = {.mode = mode,
                 .room = 2048,
                 .work = WORKING_NEEDED,
                 .first = words,
                 .second = words_from(N)};
    Outcome expected = {.number = first, .readings = readings};
    if (first == SUCCESS) {
        expected.length = (uint32_t)words.count;
        expected.result = words;
    }
    bool same = expect(name, &call, &expected);
    Words turned = call.first;
    call.first = call.second;
    call.second = turned;
    expected.number = second;
    same = expect(name, &call, &expected) && same;
    call_free(&call);
    return same;
}

static bool programmed_hold(void) {
    bool same = with_nothing("12 free", MODE_FULL, free_disjunctions("1 0", 12), 0, 0, 4096);
    same &= with_nothing("13 free", MODE_FULL, free_disjunctions("1 0", 13), 7, 7, 0);
    same &= with_nothing("13 free, quick", MODE_QUICK, free_disjunctions("1 0", 13), 0, 0, 0);
    same &= with_nothing("13 free, quick step fails", MODE_FULL,
                         free_disjunctions("2 1 0 1 65548", 13), 10, 10, 0);
    same &= with_nothing("10 free, no choice", MODE_FULL, free_and_no_choice(10), 11, 11, 0);
    same &= with_nothing("11 free, no choice", MODE_FULL, free_and_no_choice(11), 7, 7, 0);
    same &= with_nothing("1,024 words", MODE_JOIN, of_length(1024), 0, 0, 0);
    same &= with_nothing("1,025 words", MODE_JOIN, of_length(1025), 3, 3, 0);
    same &= with_nothing("depth 4", MODE_FULL, nested(4), 0, 0, 5);
    same &= with_nothing("depth 5", MODE_FULL, nested(5), 4, 5, 0);
    return same;
}

// The working area is judged before the inputs, and after the mode.
static bool working_holds(void) {
    Call call = {.mode = MODE_FULL, .work = WORKING_NEEDED - 1};
    Outcome small = {.number = WORKING_SMALL};
    bool same = expect("working area of 16,383", &call, &small);
    call.mode = 3;
    Outcome unknown = {.number = UNKNOWN_MODE};
    return expect("mode before working area", &call, &unknown) && same;
}

int run_known(void) {
    size_t count = sizeof cases / sizeof *cases;
    bool all = true;
    for (size_t index = 0; index < count; index++) {
        all &= known_holds(&cases[index]);
    }
    all &= programmed_hold();
    all &= working_holds();
    printf(
        "known: %zu cases of the table, 10 built by program with both orders, working area: %s\n",
        count, all ? "as document 01 and request Six say" : "DIFFERENT");
    return all ? 0 : 1;
}
