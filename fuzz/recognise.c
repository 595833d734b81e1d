// Recognising descriptions and counting their choices, by one pass over the words.
#include "recognise.h"

enum { FEATURES = 65536, HEADS = 131072, DEPTH = 4 };

// The words not yet read. Once something was wrong, `good` stays false.
typedef struct {
    const uint32_t *next;
    size_t left;
    bool good;
} Reader;

static uint32_t take(Reader *reader) {
    if (reader->left == 0) {
        reader->good = false;
        return 0;
    }
    reader->left--;
    return *reader->next++;
}

static void need(Reader *reader, bool holds) {
    reader->good = reader->good && holds;
}

// The arcs of a node; `met` nodes of the `count` have been met so far.
static void arcs(Reader *reader, uint32_t arc_count, uint32_t count, uint32_t *met) {
    int64_t before = -1;
    for (uint32_t arc = 0; reader->good && arc < arc_count; arc++) {
        uint32_t feature = take(reader);
        uint32_t target = take(reader);
        need(reader, feature < FEATURES && (int64_t)feature > before);
        need(reader, target <= *met && target < count);
        before = feature;
        *met += target == *met;
    }
}

static void graph(Reader *reader) {
    uint32_t met = 1;
    uint32_t count = take(reader);
    need(reader, count >= 1);
    for (uint32_t node = 0; reader->good && node < count; node++) {
        need(reader, node < met);
        uint32_t head = take(reader);
        need(reader, head < HEADS);
        arcs(reader, head < FEATURES ? head : 0, count, &met);
    }
}

static void description(Reader *reader, int depth);

static void disjunction(Reader *reader, int depth) {
    uint32_t count = take(reader);
    need(reader, count >= 2 && depth < DEPTH);
    for (uint32_t index = 0; reader->good && index < count; index++) {
        description(reader, depth + 1);
    }
}

static void description(Reader *reader, int depth) {
    graph(reader);
    uint32_t count = take(reader);
    for (uint32_t index = 0; reader->good && index < count; index++) {
        disjunction(reader, depth);
    }
}

bool well_formed(const uint32_t *words, size_t count) {
    Reader reader = {words, count, true};
    description(&reader, 0);
    return reader.good && reader.left == 0;
}

static uint32_t capped(uint64_t count) {
    return count < CHOICES_CAP ? (uint32_t)count : CHOICES_CAP;
}

static void skip_graph(const uint32_t **word) {
    uint32_t count = *(*word)++;
    for (uint32_t node = 0; node < count; node++) {
        uint32_t head = *(*word)++;
        *word += head < FEATURES ? 2 * (size_t)head : 0;
    }
}

static uint32_t description_choices(const uint32_t **word);

static uint32_t disjunction_choices(const uint32_t **word) {
    uint32_t sum = 0;
    uint32_t count = *(*word)++;
    for (uint32_t index = 0; index < count; index++) {
        sum = capped((uint64_t)sum + description_choices(word));
    }
    return sum;
}

static uint32_t description_choices(const uint32_t **word) {
    uint32_t product = 1;
    skip_graph(word);
    uint32_t count = *(*word)++;
    for (uint32_t index = 0; index < count; index++) {
        product = capped((uint64_t)product * disjunction_choices(word));
    }
    return product;
}

uint32_t choices_of(const uint32_t *words) {
    return description_choices(&words);
}
