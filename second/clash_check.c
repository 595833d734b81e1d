// The self-check of where graphs clash. Classes do not depend on atoms: without them both graphs are
// merged by the method of the other checks, and the merged graph's nodes are the classes.
#include "clash_check.h"

#include "call.h"
#include "check.h"
#include "clash_node.h"
#include "clash_shapes.h"
#include "clash_text.h"
#include "join.h"

#include <inttypes.h>
#include <stdlib.h>

static void demand(NodeCheck *check, bool holds, const char *failure) {
    if (!holds && check->failure == NULL) {
        check->failure = failure;
    }
}

// The words of a description's graph without its atoms.
static Words bare_words(const Description *description) {
    Description bare = description_copy(description);
    Words words = {0};
    for (uint32_t node = 0; node < bare.graph.node_count; node++) {
        bare.graph.nodes[node].has_atom = false;
    }
    description_write(&bare, &words);
    description_free(&bare);
    return words;
}

// Both graphs merged without their atoms.
static Description merged_bare(NodeCheck *check, const Pair *pair) {
    Words first = bare_words(&pair->first);
    Words second = bare_words(&pair->second);
    Words merged = {0};
    Pick both = {0};
    pick_add(&both, first.at);
    pick_add(&both, second.at);
    demand(check, sheet_merge_all(&check->sheet, &both), "graphs without atoms clash");
    sheet_write(&check->sheet, &merged);
    words_add(&merged, 0);
    Description description;
    demand(check, description_read(merged.at, merged.count, &description), "merged to no graph");
    pick_free(&both);
    words_free(&merged);
    words_free(&second);
    words_free(&first);
    return description;
}

// What a class holds.
typedef struct {
    bool has_atom;
    uint32_t atom;
    bool atoms_differ;
    bool has_arc;
} Content;

static void content_add(Content *content, const Node *node) {
    if (node->has_atom) {
        content->atoms_differ |= content->has_atom && content->atom != node->atom;
        content->has_atom = true;
        content->atom = node->atom;
    }
    content->has_arc |= node->arc_count > 0;
}

static bool content_clashes(const Content *content) {
    return content->atoms_differ || (content->has_atom && content->has_arc);
}

// Where the arc of a class with a feature leads; each arc of its nodes has one.
static uint32_t class_target(NodeCheck *check, const Node *class, uint32_t feature) {
    uint32_t index = 0;
    while (index < class->arc_count && class->arcs[index].feature != feature) {
        index++;
    }
    demand(check, index < class->arc_count, "an arc is lost in merging");
    return index < class->arc_count ? class->arcs[index].target : 0;
}

// Sends the targets of a node to their classes; one that is met again must come to the same.
static void send_targets(NodeCheck *check, const Node *node, const Node *class,
                         uint32_t *class_of) {
    for (uint32_t index = 0; index < node->arc_count; index++) {
        uint32_t *target = &class_of[node->arcs[index].target];
        uint32_t reached = class_target(check, class, node->arcs[index].feature);
        demand(check, *target == UINT32_MAX || *target == reached, "a node in two classes");
        *target = reached;
    }
}

// Sends the nodes of a graph to their classes, from the root on, and tells the classes what they
// bear.
static void send_nodes(NodeCheck *check, const Graph *graph, const Graph *classes,
                       uint32_t *class_of, Content *contents) {
    for (uint32_t node = 0; node < graph->node_count; node++) {
        class_of[node] = node == 0 ? 0 : UINT32_MAX;
    }
    for (uint32_t node = 0; node < graph->node_count; node++) {
        uint32_t class = class_of[node];
        content_add(&contents[class], &graph->nodes[node]);
        send_targets(check, &graph->nodes[node], &classes->nodes[class], class_of);
    }
}

// The first node whose class clashes; the number of nodes when there is none.
static uint32_t first_clashing(const uint32_t *class_of, uint32_t count, const Content *contents) {
    uint32_t node = 0;
    while (node < count && !content_clashes(&contents[class_of[node]])) {
        node++;
    }
    return node;
}

// The node by the merged graph; the number of nodes when there is none.
static uint32_t expected_node(NodeCheck *check, const Pair *pair) {
    uint32_t before = pair->first.graph.node_count;
    uint32_t count = before + pair->second.graph.node_count;
    Description merged = merged_bare(check, pair);
    uint32_t *class_of = zeroed(count, sizeof(uint32_t));
    Content *contents = zeroed(merged.graph.node_count, sizeof(Content));
    send_nodes(check, &pair->first.graph, &merged.graph, class_of, contents);
    send_nodes(check, &pair->second.graph, &merged.graph, class_of + before, contents);
    uint32_t node = first_clashing(class_of, count, contents);
    free(contents);
    free(class_of);
    description_free(&merged);
    return node;
}

// The words of a description without its disjunctions.
static Words definite_words(const Words *words) {
    Words definite = {0};
    words_add_all(&definite, words->at, (size_t)(graph_end(words->at) - words->at));
    words_add(&definite, 0);
    return definite;
}

uint32_t merged_node(Sheet *sheet, const Words *first, const Words *second) {
    NodeCheck check = {.sheet = *sheet};
    Words words[] = {definite_words(first), definite_words(second)};
    uint32_t node = UINT32_MAX;
    Pair pair;
    if (definite_read(&words[0], &words[1], &pair)) {
        uint32_t count = pair.first.graph.node_count + pair.second.graph.node_count;
        uint32_t found = expected_node(&check, &pair);
        node = check.failure == NULL && found < count ? found : UINT32_MAX;
        pair_free(&pair);
    }
    words_free(&words[0]);
    words_free(&words[1]);
    return node;
}

static void print_graph(const Description *description) {
    Words words = {0};
    description_write(description, &words);
    printf(" %zu ", words.count);
    words_print(&words, stdout);
    words_free(&words);
}

// Prints what went wrong first, and the graphs of which it is so.
static void report(const NodeCheck *check, const Pair *pair) {
    if (check->failure != NULL) {
        printf("difference: %s:", check->failure);
        print_graph(&pair->first);
        print_graph(&pair->second);
        putchar('\n');
    }
}

void check_node(NodeCheck *check, const Pair *pair) {
    const Graph *graphs[] = {&pair->first.graph, &pair->second.graph};
    uint32_t count = graphs[0]->node_count + graphs[1]->node_count;
    uint32_t node;
    bool clash = clash_node(graphs[0], graphs[1], &node);
    uint32_t expected = expected_node(check, pair);
    demand(check, clash != graphs_agree(graphs, 2), "a node without a clash, or none with one");
    demand(check, clash || node == 0, "a node is told without a clash");
    demand(check, clash == (expected < count), "no class holds the clash, or one unseen");
    demand(check, !clash || node >= expected, "the class of the node holds no clash");
    demand(check, !clash || node <= expected, "a smaller node clashes too");
    check->agreeing += !clash;
    check->clashing += clash;
    check->in_second += clash && node >= graphs[0]->node_count;
    report(check, pair);
}

int run_check_nodes(uint64_t seed, uint64_t count) {
    NodeCheck check = {.random = {seed}};
    sheet_open(&check.sheet, MOST_CELLS);
    for (uint64_t done = 0; done < count && check.failure == NULL; done++) {
        Pair pair = random_definite_pair(&check.random);
        check_node(&check, &pair);
        pair_free(&pair);
    }
    printf("self-check seed %" PRIu64 ": %" PRIu64 " pairs of graphs agree, %" PRIu64
           " clash, %" PRIu64 " of them at a node of the second graph\n",
           seed, check.agreeing, check.clashing, check.in_second);
    sheet_free(&check.sheet);
    return check.failure == NULL ? 0 : 1;
}
