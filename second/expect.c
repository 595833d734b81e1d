// What modes 0 and 2 must deliver, written straight from words.
#include "expect.h"

bool expect_joined(Sheet *sheet, const Words *first, const Words *second, Words *expected) {
    Pick both = {0};
    pick_add(&both, first->at);
    pick_add(&both, second->at);
    bool agree = sheet_merge_all(sheet, &both);
    pick_free(&both);
    if (agree) {
        const uint32_t *first_rest = graph_end(first->at);
        const uint32_t *second_rest = graph_end(second->at);
        sheet_write(sheet, expected);
        words_add(expected, *first_rest + *second_rest);
        words_add_all(expected, first_rest + 1,
                      (size_t)(first->at + first->count - first_rest) - 1);
        words_add_all(expected, second_rest + 1,
                      (size_t)(second->at + second->count - second_rest) - 1);
    }
    return agree;
}

// A description under way: the graphs that make its definite graph, and its disjunctions.
typedef struct {
    Pick graphs;
    uint32_t disjunction_count;
    Words disjunctions;
} Draft;

static void draft_free(Draft *draft) {
    pick_free(&draft->graphs);
    words_free(&draft->disjunctions);
}

static void draft_write(Sheet *sheet, const Draft *draft, Words *words) {
    sheet_merge_all(sheet, &draft->graphs);
    sheet_write(sheet, words);
    words_add(words, draft->disjunction_count);
    words_add_all(words, draft->disjunctions.at, draft->disjunctions.count);
}

static bool pick_holds(const Pick *pick, const uint32_t *graph) {
    bool found = false;
    for (size_t index = 0; !found && index < pick->count; index++) {
        found = pick->graphs[index] == graph;
    }
    return found;
}

// Whether the alternative that starts at the graph stands in a consistent choice.
static bool stands(const Picks *consistent, const uint32_t *graph) {
    bool found = false;
    for (size_t index = 0; !found && index < consistent->count; index++) {
        found = pick_holds(&consistent->picks[index], graph);
    }
    return found;
}

static Draft draft_description(Sheet *sheet, const uint32_t **word, const Picks *consistent);

// Folds a draft, which is consumed, into another.
static void draft_fold(Draft *into, Draft *only) {
    pick_add_all(&into->graphs, &only->graphs);
    into->disjunction_count += only->disjunction_count;
    words_add_all(&into->disjunctions, only->disjunctions.at, only->disjunctions.count);
    draft_free(only);
}

// Adds what stands of a disjunction to a draft: folded when it is one alternative.
static void draft_disjunction(Sheet *sheet, const uint32_t **word, const Picks *consistent,
                              Draft *draft) {
    Words written = {0};
    Draft last = {0};
    uint32_t left = 0;
    uint32_t count = *(*word)++;
    for (uint32_t index = 0; index < count; index++) {
        bool kept = stands(consistent, *word);
        Draft alternative = draft_description(sheet, word, consistent);
        if (!kept) {
            draft_free(&alternative);
            continue;
        }
        draft_write(sheet, &alternative, &written);
        draft_free(&last);
        last = alternative;
        left++;
    }
    if (left == 1) {
        draft_fold(draft, &last);
    } else {
        draft->disjunction_count++;
        words_add(&draft->disjunctions, left);
        words_add_all(&draft->disjunctions, written.at, written.count);
        draft_free(&last);
    }
    words_free(&written);
}

static Draft draft_description(Sheet *sheet, const uint32_t **word, const Picks *consistent) {
    Draft draft = {0};
    pick_add(&draft.graphs, *word);
    *word = graph_end(*word);
    uint32_t count = *(*word)++;
    for (uint32_t index = 0; index < count; index++) {
        draft_disjunction(sheet, word, consistent, &draft);
    }
    return draft;
}

Words expect_full(Sheet *sheet, const Words *joined, const Picks *consistent) {
    const uint32_t *word = joined->at;
    Words words = {0};
    Draft draft = draft_description(sheet, &word, consistent);
    draft_write(sheet, &draft, &words);
    draft_free(&draft);
    return words;
}
