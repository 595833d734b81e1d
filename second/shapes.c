// Random descriptions: plain random ones, and the shapes that errors of this trade fall for.
// Each draw is a statement of its own, or the only one of its expression, because the language
// leaves the order within an expression to the compiler.
#include "shapes.h"

#include "join.h"

enum { GOOD = 10, BAD = 11 };

void pair_free(Pair *pair) {
    description_free(&pair->first);
    description_free(&pair->second);
}

Vocabulary random_vocabulary(Random *random) {
    Vocabulary vocabulary;
    vocabulary.first_feature = random_below(random, 3);
    vocabulary.feature_count = 1 + random_below(random, 4);
    vocabulary.first_atom = random_below(random, 3);
    vocabulary.atom_count = 1 + random_below(random, 3);
    if (random_one_in(random, 20)) {
        vocabulary.first_feature = FEATURE_END - vocabulary.feature_count;
        vocabulary.first_atom = FEATURE_END - vocabulary.atom_count;
    }
    return vocabulary;
}

void node_add(Node *node, uint32_t feature, uint32_t target) {
    node->arcs = resized(node->arcs, (size_t)node->arc_count + 1, sizeof(Arc));
    node->arcs[node->arc_count++] = (Arc){feature, target};
}

static Node random_node(Random *random, Vocabulary vocabulary, uint32_t node_count, bool root) {
    Node node = {0};
    if (random_below(random, 20) < (root ? 1 : 9)) {
        node.has_atom = true;
        node.atom = vocabulary.first_atom + random_below(random, vocabulary.atom_count);
        return node;
    }
    for (uint32_t index = 0; index < vocabulary.feature_count; index++) {
        if (random_below(random, 3) < (root ? 2 : 1)) {
            node_add(&node, vocabulary.first_feature + index, random_below(random, node_count));
        }
    }
    return node;
}

// Joining the one graph numbers what is reached by first arrival, and leaves the rest behind.
Graph random_graph(Random *random, Vocabulary vocabulary, uint32_t most_nodes) {
    uint32_t node_count = 1 + random_below(random, most_nodes);
    Graph scattered = {node_count, zeroed(node_count, sizeof(Node))};
    for (uint32_t node = 0; node < node_count; node++) {
        scattered.nodes[node] = random_node(random, vocabulary, node_count, node == 0);
    }
    const Graph *alone[] = {&scattered};
    Graph graph;
    graphs_join(alone, 1, &graph);
    graph_free(&scattered);
    return graph;
}

static Disjunction random_disjunction(Random *random, Vocabulary vocabulary, Size size) {
    Disjunction disjunction = {0};
    uint32_t count = 2 + random_below(random, size.most_alternatives - 1);
    size.deepest--;
    for (uint32_t index = 0; index < count; index++) {
        disjunction_add(&disjunction, random_description(random, vocabulary, size));
    }
    return disjunction;
}

Description random_description(Random *random, Vocabulary vocabulary, Size size) {
    Description description = {.graph = random_graph(random, vocabulary, size.most_nodes)};
    uint32_t count = size.deepest == 0 ? 0 : random_below(random, size.most_disjunctions + 1);
    if (size.deepest < 4 && random_one_in(random, 2)) {
        count = 0;
    }
    for (uint32_t index = 0; index < count; index++) {
        description_add(&description, random_disjunction(random, vocabulary, size));
    }
    return description;
}

// A description whose graph says nothing.
static Description nothing(void) {
    return (Description){.graph = graph_of_nothing()};
}

// Adds to the root an arc to a new node with an atom; features are added by rising number.
static Description with_value(Description description, uint32_t feature, uint32_t atom) {
    Graph *graph = &description.graph;
    uint32_t target = graph->node_count++;
    graph->nodes = resized(graph->nodes, graph->node_count, sizeof(Node));
    graph->nodes[target] = (Node){.has_atom = true, .atom = atom};
    node_add(&graph->nodes[0], feature, target);
    return description;
}

static Description value(uint32_t feature, uint32_t atom) {
    return with_value(nothing(), feature, atom);
}

// Two features, the first the lower, with atoms.
static Description values(uint32_t first, uint32_t atom, uint32_t second, uint32_t other) {
    return with_value(value(first, atom), second, other);
}

// Adds to the root an arc to a node that is already met.
static Description with_link(Description description, uint32_t feature, uint32_t target) {
    node_add(&description.graph.nodes[0], feature, target);
    return description;
}

// Two alternatives in either order.
static Disjunction either(Random *random, Description first, Description second) {
    Disjunction disjunction = {0};
    bool turned = random_one_in(random, 2);
    disjunction_add(&disjunction, turned ? second : first);
    disjunction_add(&disjunction, turned ? first : second);
    return disjunction;
}

static void shuffle(Random *random, Description *description) {
    for (uint32_t left = description->disjunction_count; left > 1; left--) {
        uint32_t index = random_below(random, left);
        Disjunction last = description->disjunctions[left - 1];
        description->disjunctions[left - 1] = description->disjunctions[index];
        description->disjunctions[index] = last;
    }
}

static void turn_round(Description *description) {
    uint32_t count = description->disjunction_count;
    for (uint32_t index = 0; index < count / 2; index++) {
        Disjunction early = description->disjunctions[index];
        description->disjunctions[index] = description->disjunctions[count - 1 - index];
        description->disjunctions[count - 1 - index] = early;
    }
}

// Each fold makes an alternative of the next disjunction fail; in, against or without order.
static Description chain_of_folds(Random *random) {
    uint32_t length = 1 + random_below(random, random_one_in(random, 8) ? 40 : 8);
    Description chain = value(0, GOOD);
    if (random_one_in(random, 4)) {
        chain = with_value(chain, length, BAD);
    }
    for (uint32_t link = 0; link < length; link++) {
        description_add(&chain,
                        either(random, value(link, BAD), values(link, GOOD, link + 1, GOOD)));
    }
    uint32_t order = random_below(random, 3);
    if (order == 1) {
        turn_round(&chain);
    } else if (order == 2) {
        shuffle(random, &chain);
    }
    return chain;
}

// Wraps a description as an alternative, so many times.
static Description wrapped(Random *random, Description inner, uint32_t times) {
    for (uint32_t time = 0; time < times; time++) {
        Description outer = random_one_in(random, 2) ? nothing() : value(9, GOOD);
        description_add(&outer, either(random, inner, value(8, random_one_in(random, 3))));
        inner = outer;
    }
    return inner;
}

// An alternative with two folds of one round that agree with each other and with everything
// alone, and clash together because the outer graph gives features 1 and 2 one value.
static Description clash_through_condition(Random *random) {
    bool same = random_one_in(random, 4);
    Description inner = nothing();
    description_add(&inner, either(random, value(1, GOOD), value(3, BAD)));
    description_add(&inner, either(random, value(2, same ? GOOD : BAD), value(3, BAD)));
    Description outer = wrapped(random, inner, 1 + random_below(random, 3));
    graph_free(&outer.graph);
    outer.graph = graph_of_nothing();
    outer.graph.nodes = resized(outer.graph.nodes, 2, sizeof(Node));
    outer.graph.nodes[outer.graph.node_count++] = (Node){0};
    outer = with_link(with_link(outer, 1, 1), 2, 1);
    return with_value(outer, 3, GOOD);
}

// The values of two features differ.
static Disjunction differ(Random *random, uint32_t first, uint32_t second) {
    return either(random, values(first, GOOD, second, BAD), values(first, BAD, second, GOOD));
}

// Three disjunctions that agree two by two; together only if the last is loosened.
static Description three_in_a_ring(Random *random, uint32_t first_feature) {
    Description ring = nothing();
    description_add(&ring, differ(random, first_feature, first_feature + 1));
    description_add(&ring, differ(random, first_feature + 1, first_feature + 2));
    description_add(&ring, differ(random, first_feature, first_feature + 2));
    if (random_one_in(random, 2)) {
        disjunction_add(&ring.disjunctions[random_below(random, 3)], nothing());
    }
    shuffle(random, &ring);
    return ring;
}

// One disjunction a depth, each with an alternative that fails.
static Description folds_at_depths(Random *random, uint32_t depth) {
    Description description = value(depth, GOOD);
    if (depth == DEEPEST) {
        return description;
    }
    description_add(&description,
                    either(random, value(0, BAD), folds_at_depths(random, depth + 1)));
    if (random_one_in(random, 3)) {
        description_add(&description, either(random, value(7, GOOD), value(7, BAD)));
    }
    return description;
}

static Description wrapped_ring(Random *random) {
    Description ring = three_in_a_ring(random, random_below(random, 4));
    return wrapped(random, ring, random_below(random, DEEPEST));
}

// Many disjunctions of small graphs over a few features.
static Description many_disjunctions(Random *random) {
    Description description = nothing();
    Vocabulary vocabulary = {1, 2 + random_below(random, 5), GOOD, 2};
    uint32_t count = 4 + random_below(random, 40);
    for (uint32_t index = 0; index < count; index++) {
        Size size = {3, 0, 2, 1};
        description_add(&description, random_disjunction(random, vocabulary, size));
    }
    return description;
}

static Description many_alternatives(Random *random) {
    Description description = nothing();
    Vocabulary vocabulary = {1, 3, GOOD, 2};
    uint32_t count = 1 + random_below(random, 3);
    for (uint32_t index = 0; index < count; index++) {
        Size size = {4, 1, 2 + random_below(random, 20), 1};
        description_add(&description, random_disjunction(random, vocabulary, size));
    }
    return description;
}

// So many binary disjunctions, each on a feature of its own.
static Description free_binary(Random *random, uint32_t count) {
    Description description = nothing();
    for (uint32_t index = 0; index < count; index++) {
        description_add(&description,
                        either(random, value(20 + index, GOOD), value(20 + index, BAD)));
    }
    return description;
}

// A disjunction of so many alternatives that say nothing.
static Disjunction idle(uint32_t count) {
    Disjunction disjunction = {0};
    for (uint32_t index = 0; index < count; index++) {
        disjunction_add(&disjunction, nothing());
    }
    return disjunction;
}

static Description idle_product(uint32_t first, uint32_t second) {
    Description description = nothing();
    description_add(&description, idle(first));
    description_add(&description, idle(second));
    return description;
}

// Deals the disjunctions of a description, which is consumed, to two descriptions.
static Pair deal(Random *random, Description whole) {
    Pair pair = {{.graph = graph_copy(&whole.graph)}, nothing()};
    for (uint32_t index = 0; index < whole.disjunction_count; index++) {
        Description *to = random_one_in(random, 3) ? &pair.second : &pair.first;
        description_add(to, whole.disjunctions[index]);
        whole.disjunctions[index] = (Disjunction){0};
    }
    description_free(&whole);
    if (random_one_in(random, 2)) {
        Pair turned = {pair.second, pair.first};
        return turned;
    }
    return pair;
}

static Pair pair_of_size(Random *random, Vocabulary vocabulary, Size size) {
    Pair pair;
    pair.first = random_description(random, vocabulary, size);
    pair.second = random_description(random, vocabulary, size);
    return pair;
}

static Pair plain_pair(Random *random) {
    Vocabulary vocabulary = random_vocabulary(random);
    Size size;
    size.most_nodes = 1 + random_below(random, 6);
    size.most_disjunctions = random_below(random, 4);
    size.most_alternatives = 2 + random_below(random, 2);
    size.deepest = 1 + (int)random_below(random, DEEPEST);
    return pair_of_size(random, vocabulary, size);
}

// Large graphs without disjunctions.
static Pair large_graphs(Random *random) {
    Vocabulary vocabulary = random_vocabulary(random);
    Size size = {10 + random_below(random, 80), 0, 2, 0};
    return pair_of_size(random, vocabulary, size);
}

// Two long descriptions.
static Pair long_pair(Random *random) {
    Pair pair;
    pair.first = random_of_length(random, 1000 + random_below(random, 25));
    pair.second = random_of_length(random, 20 + random_below(random, 1005));
    return pair;
}

// One disjunction each, of up to 1,024 words together, for the longest results.
static Pair long_disjunctions(Random *random) {
    Pair pair = {nothing(), nothing()};
    description_add(&pair.first, idle(340 - random_below(random, 2)));
    description_add(&pair.second, idle(340 - random_below(random, 2)));
    return pair;
}

static Pair some_long_pair(Random *random) {
    return random_one_in(random, 3) ? long_disjunctions(random) : long_pair(random);
}

Pair random_pair(Random *random) {
    switch (random_below(random, 24)) {
    case 0:
    case 1:
        return deal(random, chain_of_folds(random));
    case 2:
    case 3:
        return deal(random, clash_through_condition(random));
    case 4:
        return deal(random, three_in_a_ring(random, 1));
    case 5:
        return deal(random, folds_at_depths(random, 0));
    case 6:
        return deal(random, wrapped_ring(random));
    case 7:
        return deal(random, many_disjunctions(random));
    case 8:
        return deal(random, many_alternatives(random));
    case 9:
        return large_graphs(random);
    case 10:
        return deal(random, free_binary(random, 1 + random_below(random, 8)));
    case 11:
        return random_one_in(random, 3) ? some_long_pair(random) : plain_pair(random);
    default:
        return plain_pair(random);
    }
}

// The free disjunctions make the three of a ring one too many, or exactly enough.
static Description free_and_ring(Random *random) {
    Description whole = free_binary(random, 9 + random_below(random, 2));
    Description ring = three_in_a_ring(random, 1);
    description_fold(&whole, ring);
    return whole;
}

Pair random_many_choices(Random *random) {
    switch (random_below(random, 11)) {
    case 0:
        return deal(random, free_binary(random, 12));
    case 1:
        return deal(random, free_and_ring(random));
    case 2:
        return deal(random, idle_product(16, 256));
    case 3:
    case 4:
        return deal(random, idle_product(17, 241));
    case 5:
        return deal(random, idle_product(65, 64));
    case 6:
        return deal(random, free_binary(random, 14 + random_below(random, 30)));
    default:
        return deal(random, free_binary(random, 13));
    }
}

// A root with arcs to atoms takes three words an arc and three more; an arc back to the root
// takes two.
Description random_of_length(Random *random, uint32_t length) {
    Description description = nothing();
    uint32_t used = 3;
    if (random_one_in(random, 2) && length >= 40) {
        description_add(&description, either(random, value(0, GOOD), value(0, BAD)));
        used += 13;
    }
    uint32_t feature = 0;
    while (used < length) {
        uint32_t left = length - used;
        bool back = left == 2 || left == 4 || (left > 4 && random_one_in(random, 50));
        uint32_t step = back ? 2 : 3;
        description =
            back ? with_link(description, feature, 0)
                 : with_value(description, feature, random_one_in(random, 400) ? BAD : GOOD);
        used += step;
        feature++;
    }
    return description;
}

// A level is a graph that says nothing, the counts of its one disjunction, and an alternative that
// says nothing: seven words.
Description random_nested_of_length(Random *random, uint32_t length, uint32_t levels) {
    Description description = random_of_length(random, length - 7 * levels);
    for (uint32_t level = 0; level < levels; level++) {
        Description outer = nothing();
        description_add(&outer, either(random, description, nothing()));
        description = outer;
    }
    return description;
}
