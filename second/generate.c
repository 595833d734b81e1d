// Seeded calls of both entries, so mixed that every number comes back often.
#include "generate.h"

#include "faults.h"
#include "join.h"
#include "shapes.h"

enum { USUAL_ROOM = 2048 };

static Words words_of(const Description *description) {
    Words words = {0};
    description_write(description, &words);
    return words;
}

// The words of a description, which now and then are spoilt.
static Words perhaps_spoilt(Random *random, const Description *description, uint32_t one_in) {
    if (random_one_in(random, one_in)) {
        return malformed_words(random, description);
    }
    if (random_one_in(random, 2 * one_in)) {
        return arbitrary_words(random, description);
    }
    return words_of(description);
}

// Puts a description of 1,024 or a few more words in the place of words.
static void make_long(Random *random, Words *words) {
    static const uint32_t lengths[] = {1024, 1025, 1025, 1026, 2048};
    Description description = random_of_length(random, lengths[random_below(random, 5)]);
    words_free(words);
    *words = words_of(&description);
    description_free(&description);
}

static uint32_t random_mode(Random *random) {
    static const uint32_t unknown[] = {3, 4, 65536, UINT32_MAX};
    return random_one_in(random, 30) ? unknown[random_below(random, 4)] : random_below(random, 3);
}

static uint32_t random_work(Random *random) {
    static const uint32_t small[] = {0, 1, 16383, 16383};
    if (random_one_in(random, 30)) {
        return small[random_below(random, 4)];
    }
    return random_one_in(random, 6) ? 20000 : WORKING_NEEDED;
}

// The room is large, exact, one word short or something else.
static uint32_t random_room(Random *random, Call *call) {
    uint32_t kind = random_below(random, 10);
    if (kind > 3) {
        return USUAL_ROOM;
    }
    if (kind == 3) {
        return random_below(random, 40);
    }
    call->room = UINT32_MAX;
    Outcome outcome = call_run(call);
    words_free(&outcome.result);
    if (outcome.length == 0) {
        return USUAL_ROOM;
    }
    return outcome.length - (kind != 0);
}

static Call random_unify(Random *random) {
    bool many = random_one_in(random, 25);
    Pair pair = many ? random_many_choices(random) : random_pair(random);
    Call call = {0};
    call.mode = random_mode(random);
    call.work = random_work(random);
    if (many && random_below(random, 4) > 0) {
        call.mode = MODE_FULL;
    }
    uint32_t one_in = many ? 60 : 24;
    call.first = perhaps_spoilt(random, &pair.first, one_in);
    call.second = perhaps_spoilt(random, &pair.second, one_in);
    description_free(&pair.first);
    description_free(&pair.second);
    if (random_one_in(random, 24)) {
        make_long(random, random_one_in(random, 2) ? &call.first : &call.second);
    }
    call.room = random_room(random, &call);
    return call;
}

// Joins the graphs of a random choice of a description to the structure, one after another; a
// graph that clashes is left out.
static void grow_structure(Random *random, const Description *description, Graph *structure) {
    Graph joined;
    if (graphs_join_two(structure, &description->graph, &joined)) {
        graph_free(structure);
        *structure = joined;
    }
    for (uint32_t index = 0; index < description->disjunction_count; index++) {
        const Disjunction *disjunction = &description->disjunctions[index];
        uint32_t taken = random_below(random, disjunction->alternative_count);
        grow_structure(random, &disjunction->alternatives[taken], structure);
    }
}

// Changes the atom of one node, if the node drawn has one.
static void change_an_atom(Random *random, Graph *structure) {
    Node *node = &structure->nodes[random_below(random, structure->node_count)];
    if (node->has_atom) {
        node->atom ^= 1;
    }
}

// A structure that mostly satisfies the description, or nearly.
static Description random_structure(Random *random, const Description *description) {
    Vocabulary vocabulary = random_vocabulary(random);
    Description structure = {.graph = random_one_in(random, 3) ? random_graph(random, vocabulary, 4)
                                                               : graph_of_nothing()};
    if (random_below(random, 8) > 0) {
        grow_structure(random, description, &structure.graph);
    }
    if (random_one_in(random, 3)) {
        change_an_atom(random, &structure.graph);
    }
    return structure;
}

Call random_fit(Random *random) {
    Pair pair = random_pair(random);
    Description structure = random_one_in(random, 3) ? description_copy(&pair.first)
                                                     : random_structure(random, &pair.second);
    Call call = {.is_fit = true};
    call.first = perhaps_spoilt(random, &structure, 20);
    call.second = perhaps_spoilt(random, &pair.second, 20);
    if (random_one_in(random, 20)) {
        make_long(random, random_one_in(random, 2) ? &call.first : &call.second);
    }
    description_free(&structure);
    description_free(&pair.first);
    description_free(&pair.second);
    return call;
}

Call random_call(Random *random) {
    return random_one_in(random, 5) ? random_fit(random) : random_unify(random);
}

void print_call(Random *random) {
    Call call = random_call(random);
    call_print(&call, stdout);
    call_free(&call);
}
