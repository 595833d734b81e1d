// Breaking one rule of the word layout in otherwise well-formed words.
#include "faults.h"

#include <stdlib.h>

typedef enum { NODE_COUNT, HEAD, FEATURE, TARGET, DISJUNCTION_COUNT, ALTERNATIVE_COUNT } Role;

// What a word is there for.
typedef struct {
    Role role;
    size_t graph_start; // where the node count of its graph stands
    bool first_arc;
    bool last_arc;
    bool arrives; // a target that is met here first
} Spot;

// Well-formed words with the spot of each.
typedef struct {
    Words words;
    Spot *spots;
    size_t position;
} Labelled;

static uint32_t label(Labelled *labelled, Spot spot) {
    labelled->spots[labelled->position] = spot;
    return labelled->words.at[labelled->position++];
}

static void label_arcs(Labelled *labelled, uint32_t count, size_t start, uint32_t *met) {
    for (uint32_t index = 0; index < count; index++) {
        Spot spot = {FEATURE, start, index == 0, index + 1 == count, false};
        label(labelled, spot);
        spot.role = TARGET;
        spot.arrives = labelled->words.at[labelled->position] == *met;
        *met += spot.arrives;
        label(labelled, spot);
    }
}

static void label_graph(Labelled *labelled) {
    size_t start = labelled->position;
    uint32_t met = 1;
    uint32_t node_count = label(labelled, (Spot){.role = NODE_COUNT, .graph_start = start});
    for (uint32_t node = 0; node < node_count; node++) {
        uint32_t head = label(labelled, (Spot){.role = HEAD, .graph_start = start});
        label_arcs(labelled, head < FEATURE_END ? head : 0, start, &met);
    }
}

static void label_description(Labelled *labelled);

static void label_disjunction(Labelled *labelled) {
    uint32_t count = label(labelled, (Spot){.role = ALTERNATIVE_COUNT});
    for (uint32_t index = 0; index < count; index++) {
        label_description(labelled);
    }
}

static void label_description(Labelled *labelled) {
    size_t start = labelled->position;
    label_graph(labelled);
    uint32_t count = label(labelled, (Spot){.role = DISJUNCTION_COUNT, .graph_start = start});
    for (uint32_t index = 0; index < count; index++) {
        label_disjunction(labelled);
    }
}

static Labelled labelled_words(const Description *description) {
    Labelled labelled = {0};
    description_write(description, &labelled.words);
    labelled.spots = zeroed(labelled.words.count, sizeof(Spot));
    label_description(&labelled);
    return labelled;
}

typedef enum {
    NODE_COUNT_ZERO,
    HEAD_TOO_LARGE,
    FEATURE_TOO_LARGE,
    FEATURE_REPEATS,
    FEATURES_FALL,
    TARGET_OUT_OF_TURN,
    TARGET_TOO_LARGE,
    NODE_NOT_MET,
    NODES_TOO_MANY,
    COUNT_HUGE,
    SPOT_FAULTS // how many faults are made at a spot
} Fault;

// Whether the fault can be made at a spot.
static bool suits(Fault fault, const Labelled *labelled, size_t index) {
    const Spot *spot = &labelled->spots[index];
    uint32_t word = labelled->words.at[index];
    switch (fault) {
    case NODE_COUNT_ZERO:
    case NODES_TOO_MANY:
        return spot->role == NODE_COUNT;
    case HEAD_TOO_LARGE:
        return spot->role == HEAD && (word == 0 || word >= FEATURE_END);
    case FEATURE_TOO_LARGE:
        return spot->role == FEATURE && spot->last_arc;
    case FEATURE_REPEATS:
    case FEATURES_FALL:
        return spot->role == FEATURE && !spot->first_arc;
    case TARGET_OUT_OF_TURN:
        return spot->role == TARGET && spot->arrives &&
               word + 1 < labelled->words.at[spot->graph_start];
    case TARGET_TOO_LARGE:
        return spot->role == TARGET;
    case NODE_NOT_MET:
        return spot->role == DISJUNCTION_COUNT;
    default:
        return spot->role != FEATURE && spot->role != TARGET;
    }
}

static void insert_word(Words *words, size_t index, uint32_t word) {
    words_add(words, word);
    for (size_t place = words->count - 1; place > index; place--) {
        words->at[place] = words->at[place - 1];
    }
    words->at[index] = word;
}

static uint32_t one_or_huge(Random *random, uint32_t least) {
    return random_one_in(random, 4) ? UINT32_MAX : least + random_below(random, 2);
}

static void make_fault(Random *random, Fault fault, Labelled *labelled, size_t index) {
    uint32_t *word = &labelled->words.at[index];
    size_t start = labelled->spots[index].graph_start;
    switch (fault) {
    case NODE_COUNT_ZERO:
        *word = 0;
        break;
    case NODES_TOO_MANY:
        *word += 1 + random_below(random, 2);
        break;
    case HEAD_TOO_LARGE:
        *word = one_or_huge(random, HEAD_END);
        break;
    case FEATURE_TOO_LARGE:
        *word = one_or_huge(random, FEATURE_END);
        break;
    case FEATURE_REPEATS:
        *word = word[-2];
        break;
    case FEATURES_FALL: {
        uint32_t lower = word[-2];
        word[-2] = *word;
        *word = lower;
        break;
    }
    case TARGET_OUT_OF_TURN:
        *word += 1;
        break;
    case TARGET_TOO_LARGE:
        *word = one_or_huge(random, labelled->words.at[start]);
        break;
    case NODE_NOT_MET:
        labelled->words.at[start] += 1;
        insert_word(&labelled->words, index, random_one_in(random, 2) ? 0 : FEATURE_END + 10);
        break;
    default:
        *word = random_one_in(random, 2) ? UINT32_MAX : FEATURE_END - 1;
    }
}

// Makes the fault at a random spot that suits it; false when there is none.
static bool fault_somewhere(Random *random, Fault fault, Labelled *labelled) {
    uint32_t suiting = 0;
    size_t chosen = 0;
    for (size_t index = 0; index < labelled->words.count; index++) {
        if (suits(fault, labelled, index) && random_one_in(random, ++suiting)) {
            chosen = index;
        }
    }
    if (suiting > 0) {
        make_fault(random, fault, labelled, chosen);
    }
    return suiting > 0;
}

// The description with its last disjunction cut to so many alternatives, none or one.
static Words cut_alternatives(const Description *description, uint32_t left) {
    Description cut = description_copy(description);
    Disjunction last = {0};
    if (cut.disjunction_count > 0) {
        last = cut.disjunctions[--cut.disjunction_count];
    }
    while (last.alternative_count > left) {
        description_free(&last.alternatives[--last.alternative_count]);
    }
    if (last.alternative_count < left) {
        disjunction_add(&last, (Description){.graph = graph_of_nothing()});
    }
    description_add(&cut, last);
    Words words = {0};
    description_write(&cut, &words);
    description_free(&cut);
    return words;
}

// Alternatives nested so deep.
static Words nested(Random *random, uint32_t depth) {
    Description inner = {.graph = graph_of_nothing()};
    for (uint32_t level = 0; level < depth; level++) {
        Disjunction disjunction = {0};
        bool turned = random_one_in(random, 2);
        Description other = {.graph = graph_of_nothing()};
        disjunction_add(&disjunction, turned ? other : inner);
        disjunction_add(&disjunction, turned ? inner : other);
        inner = (Description){.graph = graph_of_nothing()};
        description_add(&inner, disjunction);
    }
    Words words = {0};
    description_write(&inner, &words);
    description_free(&inner);
    return words;
}

static Words with_words_over(Random *random, const Description *description) {
    Words words = {0};
    description_write(description, &words);
    uint32_t count = 1 + random_below(random, 3);
    for (uint32_t index = 0; index < count; index++) {
        words_add(&words, random_below(random, 3));
    }
    return words;
}

static Words with_words_missing(Random *random, const Description *description) {
    Words words = {0};
    description_write(description, &words);
    words.count -= 1 + random_below(random, (uint32_t)words.count - 1);
    return words;
}

Words malformed_words(Random *random, const Description *description) {
    uint32_t kind = random_below(random, SPOT_FAULTS + 6);
    switch (kind) {
    case SPOT_FAULTS:
        return with_words_missing(random, description);
    case SPOT_FAULTS + 1:
        return cut_alternatives(description, 0);
    case SPOT_FAULTS + 2:
        return cut_alternatives(description, 1);
    case SPOT_FAULTS + 3:
        return nested(random, DEEPEST + 1);
    case SPOT_FAULTS + 4:
        return (Words){0};
    case SPOT_FAULTS + 5:
        return with_words_over(random, description);
    default:
        break;
    }
    Labelled labelled = labelled_words(description);
    bool made = fault_somewhere(random, (Fault)kind, &labelled);
    free(labelled.spots);
    if (!made) {
        words_free(&labelled.words);
        return with_words_over(random, description);
    }
    return labelled.words;
}

static uint32_t arbitrary_word(Random *random) {
    static const uint32_t edges[] = {65535, 65536, 65546, 131071, 131072, UINT32_MAX};
    return random_one_in(random, 4) ? edges[random_below(random, 6)] : random_below(random, 4);
}

Words arbitrary_words(Random *random, const Description *description) {
    Words words = {0};
    if (random_one_in(random, 2)) {
        description_write(description, &words);
        uint32_t drawn = random_below(random, (uint32_t)words.count);
        words.at[drawn] = arbitrary_word(random);
        return words;
    }
    uint32_t count = random_below(random, 16);
    for (uint32_t index = 0; index < count; index++) {
        words_add(&words, arbitrary_word(random));
    }
    return words;
}
