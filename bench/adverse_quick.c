// Two descriptions for the quick step: folds in many rounds, under conditions that cost much, and
// many alternatives. Each takes close to 1,024 words.
//
// What a quick step costs at the worst is a product: so many rounds, in each of them so many
// alternatives to try, and for each of these so many classes to unite or arcs to pass. The inputs
// named chain_over_.. spread their words about evenly over the factors.
#include "adverse_parts.h"

enum { CHAIN = 1000, NO_DISJUNCTIONS = 0 };

// A description: the feature leads from the root to the root. 5 words.
static void add_loop(Words *words, uint32_t feature) {
    const uint32_t loop[] = {1, 1, feature, 0, NO_DISJUNCTIONS};
    words_add_all(words, loop, 5);
}

// A description: the feature of the root is the atom. 6 words.
static void add_fact(Words *words, uint32_t feature) {
    const uint32_t fact[] = {2, 1, feature, 1, ATOM, NO_DISJUNCTIONS};
    words_add_all(words, fact, 6);
}

// The start of a description whose graph says nothing, or only that a feature is the atom, with
// so many disjunctions to follow. 3 words, or 6.
static void start_empty(Words *words, uint32_t disjunctions) {
    const uint32_t start[] = {1, 0, disjunctions};
    words_add_all(words, start, 3);
}

static void start_with_fact(Words *words, uint32_t feature, uint32_t disjunctions) {
    const uint32_t start[] = {2, 1, feature, 1, ATOM, disjunctions};
    words_add_all(words, start, 6);
}

// A link of a chain, 12 words: once its feature is known to be the atom, its first alternative
// fails, and folding the other tells the same of the next feature.
static void add_link(Words *words, uint32_t feature) {
    words_add(words, 2);
    add_loop(words, feature);
    add_fact(words, feature + 1);
}

// Links from the last to the first: each folds one round before the link that is read before it.
static void add_reversed(Words *words, uint32_t from, uint32_t end) {
    for (uint32_t link = end; link-- > from;) {
        add_link(words, CHAIN + link);
    }
}

// The longest chain, 169 links, against reading order.
void make_chain_reversed(Words *first, Words *second) {
    start_empty(first, 85);
    add_reversed(first, 84, 169);
    start_with_fact(second, CHAIN, 84);
    add_reversed(second, 0, 84);
}

// The links stand in the second input and the first by turns.
void make_chain_alternating(Words *first, Words *second) {
    start_empty(first, 84);
    start_with_fact(second, CHAIN, 84);
    for (uint32_t link = 168; link-- > 0;) {
        add_link(link % 2 == 0 ? second : first, CHAIN + link);
    }
}

// The links stand in reading order; for comparison.
void make_chain_forward(Words *first, Words *second) {
    start_with_fact(first, CHAIN, 84);
    start_empty(second, 85);
    for (uint32_t link = 0; link < 169; link++) {
        add_link(link < 84 ? first : second, CHAIN + link);
    }
}

// A long chain before a disjunction with as many alternatives, each of which says nothing.
void make_chain_over_alternatives(Words *first, Words *second) {
    start_empty(first, 85);
    add_reversed(first, 0, 85);
    start_with_fact(second, CHAIN, 1);
    words_add(second, 339);
    for (uint32_t index = 0; index < 339; index++) {
        start_empty(second, NO_DISJUNCTIONS);
    }
}

// A disjunction of alternatives that each make a feature lead from the root to the root.
static void add_loops(Words *words, uint32_t alternatives, uint32_t feature) {
    words_add(words, alternatives);
    for (uint32_t index = 0; index < alternatives; index++) {
        add_loop(words, feature);
    }
}

// Under a cycle, an alternative of 5 words unites all its nodes: 56 rounds, 136 alternatives, 226
// nodes.
void make_chain_over_cycle(Words *first, Words *second) {
    add_cycle(first, 226, 1);
    words_add(first, 28);
    add_reversed(first, 28, 56);
    start_with_fact(second, CHAIN, 29);
    add_loops(second, 136, 1);
    add_reversed(second, 0, 28);
}

// The root has 255 arcs more, all before the cycle's: 41 rounds, 104 alternatives, 170 nodes.
void make_chain_over_wide_cycle(Words *first, Words *second) {
    uint32_t nodes = 170;
    words_add(first, nodes);
    words_add(first, 256);
    for (uint32_t arc = 0; arc < 255; arc++) {
        words_add(first, CHAIN + 1000 + arc);
        words_add(first, 0);
    }
    words_add(first, LAST);
    words_add(first, 1);
    for (uint32_t node = 1; node < nodes; node++) {
        add_fan(first, 1, LAST, 1, (node + 1) % nodes);
    }
    words_add(first, NO_DISJUNCTIONS);
    start_with_fact(second, CHAIN, 42);
    add_loops(second, 104, LAST);
    add_reversed(second, 0, 41);
}

// A description whose root has many arcs to itself.
static void add_wide(Words *words, uint32_t arcs, uint32_t feature) {
    words_add(words, 1);
    add_fan(words, arcs, feature, 1, 0);
    words_add(words, NO_DISJUNCTIONS);
}

// Under a root with 338 arcs, two alternatives of 167 arcs that all come after those, in each of
// 56 rounds.
void make_chain_over_star(Words *first, Words *second) {
    words_add(first, 1);
    add_fan(first, 338, CHAIN + 1000, 1, 0);
    words_add(first, 28);
    add_reversed(first, 28, 56);
    start_with_fact(second, CHAIN, 29);
    words_add(second, 2);
    add_wide(second, 167, CHAIN + 2000);
    add_wide(second, 167, CHAIN + 2000);
    add_reversed(second, 0, 28);
}

// A graph: a root with two arcs to each of its nodes, first to the nodes in order, then to the
// nodes from the last to the first. 5 words a node.
static void add_mirrored(Words *words, uint32_t nodes, uint32_t feature) {
    words_add(words, nodes + 1);
    words_add(words, 2 * nodes);
    for (uint32_t node = 1; node <= nodes; node++) {
        words_add(words, feature + node);
        words_add(words, node);
    }
    for (uint32_t node = nodes; node >= 1; node--) {
        words_add(words, feature + 2 * nodes + 1 - node);
        words_add(words, node);
    }
    for (uint32_t node = 1; node <= nodes; node++) {
        words_add(words, 0);
    }
}

// The other definite graph makes all these nodes one, from the last down; each alternative then
// speaks of the last. 150 nodes, 39 rounds, 84 alternatives.
void make_chain_over_deep_class(Words *first, Words *second) {
    uint32_t nodes = 150;
    uint32_t base = CHAIN + 1000;
    add_mirrored(first, nodes, base);
    words_add(first, 22);
    add_reversed(first, 17, 39);
    words_add(second, 2);
    words_add(second, 1 + nodes);
    words_add(second, CHAIN);
    words_add(second, 1);
    for (uint32_t arc = 1; arc <= nodes; arc++) {
        words_add(second, base + nodes + arc);
        words_add(second, 1);
    }
    words_add(second, ATOM);
    words_add(second, 18);
    words_add(second, 84);
    for (uint32_t index = 0; index < 84; index++) {
        add_fact(second, base + nodes);
    }
    add_reversed(second, 0, 17);
}

// A description with a fact and a chain of 42 links that starts from it, all to be folded.
static void add_inner_chain(Words *words) {
    start_with_fact(words, CHAIN, 42);
    add_reversed(words, 0, 42);
}

// Chains inside alternatives: two alternatives in each input.
static void add_inner_chains(Words *words) {
    start_empty(words, 1);
    words_add(words, 2);
    add_inner_chain(words);
    add_inner_chain(words);
}

void make_chains_inside(Words *first, Words *second) {
    add_inner_chains(first);
    add_inner_chains(second);
}

// An alternative that speaks of the 85 features of an outer chain and holds a chain of its own, 27
// links that start from a fact of its graph. 501 words.
static void add_inner_over(Words *words) {
    uint32_t inner = CHAIN + 1000;
    words_add(words, 3);
    words_add(words, 86);
    for (uint32_t link = 1; link <= 85; link++) {
        words_add(words, CHAIN + link);
        words_add(words, 1);
    }
    const uint32_t rest[] = {inner, 2, 0, ATOM, 27};
    words_add_all(words, rest, 5);
    for (uint32_t link = 27; link-- > 0;) {
        add_link(words, inner + link);
    }
}

void make_chain_over_chains(Words *first, Words *second) {
    start_empty(first, 85);
    add_reversed(first, 0, 85);
    start_with_fact(second, CHAIN, 1);
    words_add(second, 2);
    add_inner_over(second);
    add_inner_over(second);
}

// A description that folds three times, one inside the other, down to a loop: in each, the other
// alternative is an atom for the root. 26 words.
static void add_nest(Words *words, uint32_t feature) {
    for (int depth = 0; depth < 3; depth++) {
        const uint32_t level[] = {1, 0, 1, 2, 1, ATOM, NO_DISJUNCTIONS};
        words_add_all(words, level, 7);
    }
    add_loop(words, feature);
}

// Links of a chain, from the last to the first, whose first alternative is such a nest. 33 words.
static void add_nested_links(Words *words, uint32_t from, uint32_t end) {
    for (uint32_t link = end; link-- > from;) {
        words_add(words, 2);
        add_nest(words, CHAIN + link);
        add_fact(words, CHAIN + link + 1);
    }
}

void make_nests_narrow(Words *first, Words *second) {
    start_empty(first, 30);
    add_nested_links(first, 30, 60);
    start_with_fact(second, CHAIN, 30);
    add_nested_links(second, 0, 30);
}

// A description with two alternatives, in each of them two, and so on down to loops. 68 words at
// depth 3.
static void add_broad_nest(Words *words, int depth, uint32_t feature) {
    if (depth == 0) {
        add_loop(words, feature);
        return;
    }
    start_empty(words, 1);
    words_add(words, 2);
    add_broad_nest(words, depth - 1, feature);
    add_broad_nest(words, depth - 1, feature);
}

static void add_broad_links(Words *words, uint32_t from, uint32_t end) {
    for (uint32_t link = end; link-- > from;) {
        words_add(words, 2);
        add_broad_nest(words, 3, CHAIN + link);
        add_fact(words, CHAIN + link + 1);
    }
}

void make_nests_broad(Words *first, Words *second) {
    start_empty(first, 13);
    add_broad_links(first, 13, 26);
    start_with_fact(second, CHAIN, 13);
    add_broad_links(second, 0, 13);
}

// A disjunction of 64 alternatives with five arcs each. 14 words an alternative.
static void add_64(Words *words, uint32_t feature) {
    start_empty(words, 1);
    words_add(words, 64);
    for (uint32_t index = 0; index < 64; index++) {
        words_add(words, 2);
        add_fan(words, 5, feature + index, 64, 1);
        words_add(words, ATOM);
        words_add(words, NO_DISJUNCTIONS);
    }
}

void make_alternatives_64(Words *first, Words *second) {
    add_64(first, 0);
    add_64(second, 32);
}

// A disjunction of 85 alternatives in each of which a disjunction folds, so that each is written
// anew. 12 words an alternative.
static void add_anew(Words *words) {
    start_empty(words, 1);
    words_add(words, 85);
    for (uint32_t index = 0; index < 85; index++) {
        const uint32_t alternative[] = {1, 1, index, 0, 1, 2, 1, ATOM, 0, 1, 0, 0};
        words_add_all(words, alternative, 12);
    }
}

void make_alternatives_anew(Words *first, Words *second) {
    add_anew(first);
    add_anew(second);
}

static void add_facts(Words *words, uint32_t alternatives, uint32_t feature) {
    words_add(words, alternatives);
    for (uint32_t index = 0; index < alternatives; index++) {
        add_fact(words, feature + index);
    }
}

void make_alternatives_most(Words *first, Words *second) {
    start_empty(first, 1);
    add_facts(first, 170, 0);
    start_empty(second, 1);
    add_facts(second, 170, 100);
}

// All alternatives but the last fail.
static void add_failing(Words *words) {
    start_with_fact(words, CHAIN, 1);
    words_add(words, 203);
    for (uint32_t index = 0; index < 202; index++) {
        add_loop(words, CHAIN);
    }
    add_fact(words, CHAIN);
}

void make_alternatives_failing(Words *first, Words *second) {
    add_failing(first);
    add_failing(second);
}

// The most disjunctions: 145 in each input, with two alternatives that say nothing.
static void add_smallest(Words *words) {
    start_empty(words, 145);
    for (uint32_t index = 0; index < 145; index++) {
        words_add(words, 2);
        start_empty(words, NO_DISJUNCTIONS);
        start_empty(words, NO_DISJUNCTIONS);
    }
}

void make_disjunctions_most(Words *first, Words *second) {
    add_smallest(first);
    add_smallest(second);
}

// Each disjunction folds in the first round: one of its alternatives is an atom for the root.
static void add_folding(Words *words, uint32_t feature) {
    start_with_fact(words, LAST, 113);
    for (uint32_t index = 0; index < 113; index++) {
        const uint32_t failing[] = {2, 1, ATOM, NO_DISJUNCTIONS};
        words_add_all(words, failing, 4);
        add_loop(words, feature + index);
    }
}

void make_folds_at_once(Words *first, Words *second) {
    add_folding(first, 0);
    add_folding(second, 113);
}
