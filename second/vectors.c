// Stored vectors: a stream of little-endian 32-bit words, ended by 0xFFFFFFFF.
#include "generate.h"

#include "causes.h"
#include "causes_words.h"
#include "clash_node.h"
#include "clash_shapes.h"
#include "faults.h"
#include "formula_texts.h"
#include "library_texts.h"
#include "shapes.h"
#include "stored.h"
#include "suite_vectors.h"

#include <string.h>

enum { LONGEST_STORED = 2048 };

// Bytes of a text and of the words it gives, over which three of four are left out.
enum { LONGEST_USUAL = 2000 };

// What a vector is of.
enum { STORED_UNIFY, STORED_FIT, STORED_JOIN };

// What it is of, mode, room, work, number, length, readings, node, both inputs, and the words of a
// result.
static void put_call(uint32_t stored, const Call *call) {
    Outcome outcome = call_run(call);
    put_word(stored);
    put_word(call->mode);
    put_word(call->room);
    put_word(call->work);
    put_word(outcome.number);
    put_word(outcome.length);
    put_word(outcome.readings);
    put_word(outcome.node);
    put_counted(&call->first);
    put_counted(&call->second);
    put_counted(&outcome.result);
    words_free(&outcome.result);
}

static void put_random_call(Random *random) {
    Call call = random_call(random);
    put_call(call.is_fit ? STORED_FIT : STORED_UNIFY, &call);
    call_free(&call);
}

// Whether an input is over 2,048 words; every other long call counts too, to keep the stream short.
static bool too_long_to_store(Random *random, const Call *call) {
    return call->first.count > LONGEST_STORED || call->second.count > LONGEST_STORED ||
           (call->first.count + call->second.count > LONGEST_INPUT && random_one_in(random, 2));
}

// A fit test of inputs of at most 2,048 words each.
static void put_random_fit(Random *random) {
    Call call = random_fit(random);
    while (too_long_to_store(random, &call)) {
        call_free(&call);
        call = random_fit(random);
    }
    put_call(STORED_FIT, &call);
    call_free(&call);
}

static Words random_graph_words(Random *random, Vocabulary vocabulary, uint32_t most_nodes) {
    Description description = {.graph = random_graph(random, vocabulary, most_nodes)};
    Words words = {0};
    description_write(&description, &words);
    description_free(&description);
    return words;
}

// Two canonical graphs without disjunctions, to be joined.
static void put_random_join(Random *random) {
    Vocabulary vocabulary = random_vocabulary(random);
    uint32_t most_nodes = 1 + random_below(random, random_one_in(random, 10) ? 60 : 8);
    Call call = {.mode = MODE_JOIN, .room = 2048, .work = WORKING_NEEDED};
    call.first = random_graph_words(random, vocabulary, most_nodes);
    call.second = random_graph_words(random, vocabulary, most_nodes);
    put_call(STORED_JOIN, &call);
    call_free(&call);
}

// The words of a description.
static void put_description(const Description *description) {
    Words words = {0};
    description_write(description, &words);
    put_counted(&words);
    words_free(&words);
}

// Two graphs without disjunctions, then 1 and the node at which they clash, or 0 and 0.
static void put_random_node(Random *random) {
    Pair pair = random_definite_pair(random);
    uint32_t node;
    bool clash = clash_node(&pair.first.graph, &pair.second.graph, &node);
    put_description(&pair.first);
    put_description(&pair.second);
    put_word(clash);
    put_word(node);
    pair_free(&pair);
}

// The longest input, nested as deep as is allowed or one level deeper.
static Words deepest_words(Random *random) {
    Description description = random_nested_of_length(random, LONGEST_INPUT, DEEPEST);
    Words words = {0};
    description_write(&description, &words);
    description_free(&description);
    return words;
}

static Words random_words_to_read(Random *random) {
    if (random_one_in(random, 100)) {
        return deepest_words(random);
    }
    Pair pair = random_pair(random);
    Words words = {0};
    uint32_t kind = random_below(random, 6);
    if (kind < 3) {
        words = malformed_words(random, &pair.first);
    } else if (kind == 3) {
        words = arbitrary_words(random, &pair.first);
    } else {
        description_write(&pair.first, &words);
    }
    description_free(&pair.first);
    description_free(&pair.second);
    return words;
}

// Words, the number of their cause or 0, its data, and the place.
static void put_with_cause(const Words *words) {
    Finding finding = find_cause(words->at, words->count, NULL);
    put_counted(words);
    put_word(finding.cause);
    put_word(finding.data);
    put_word((uint32_t)finding.place);
}

// At most 1,024 words, a third of them well formed.
static void put_random_reading(Random *random) {
    Words words = random_words_to_read(random);
    while (words.count > LONGEST_INPUT) {
        words_free(&words);
        words = random_words_to_read(random);
    }
    put_with_cause(&words);
    words_free(&words);
}

// At most 1,024 words, by each cause as often.
static void put_random_fault(Random *random) {
    Words words = random_words_with_cause(random);
    put_with_cause(&words);
    words_free(&words);
}

// Room, number, what is told, the text, and the words of a result.
static void put_formula(const FormulaCall *call, const FormulaOutcome *outcome) {
    put_word(call->room);
    put_word(outcome->number);
    put_word(outcome->told);
    put_counted_bytes(&call->text);
    put_counted(&outcome->result);
}

// Whether it is stored: three of four long ones are left out, to keep the stream short.
static bool stores_formula(Random *random, const FormulaCall *call, const FormulaOutcome *outcome) {
    size_t bytes = call->text.count + 4 * outcome->result.count;
    return bytes <= LONGEST_USUAL || random_one_in(random, 4);
}

static void put_random_formula(Random *random) {
    bool stored = false;
    while (!stored) {
        FormulaCall call = random_formula_call(random);
        FormulaOutcome outcome = formula_call_run(&call);
        stored = stores_formula(random, &call, &outcome);
        if (stored) {
            put_formula(&call, &outcome);
        }
        words_free(&outcome.result);
        formula_call_free(&call);
    }
}

typedef struct {
    const char *name;
    void (*put)(Random *random);
} Kind;

static const Kind kinds[] = {
    {"calls", put_random_call},        {"fits", put_random_fit},
    {"reading", put_random_reading},   {"faults", put_random_fault},
    {"joins", put_random_join},        {"nodes", put_random_node},
    {"formula", put_random_formula},   {"suites", put_random_suite},
    {"libraries", put_random_library}, {"changes", put_changed_library},
};

bool put_vectors(uint64_t seed, uint64_t count, const char *kind) {
    Random random = {seed};
    size_t place = 0;
    while (place < sizeof kinds / sizeof *kinds && strcmp(kind, kinds[place].name) != 0) {
        place++;
    }
    if (place == sizeof kinds / sizeof *kinds) {
        return false;
    }
    for (uint64_t index = 0; index < count; index++) {
        kinds[place].put(&random);
    }
    return true;
}

void end_vectors(void) {
    put_word(UINT32_MAX);
}
