// Word layout: words into trees, refusing every malformed run, and trees into words.
#include "description.h"

typedef struct {
    const uint32_t *words;
    size_t length;
    size_t position;
} Source;

static size_t words_left(const Source *source) {
    return source->length - source->position;
}

static bool next_word(Source *source, uint32_t *word) {
    if (words_left(source) == 0) {
        return false;
    }
    *word = source->words[source->position++];
    return true;
}

// Reads how many things follow; each takes at least `least` words, so a huge count is refused
// before anything is allocated.
static bool next_count(Source *source, size_t least, uint32_t *count) {
    return next_word(source, count) && *count <= words_left(source) / least;
}

// A target is a number already met or the next unused one, and below the node count.
static bool meet_target(uint32_t target, uint32_t node_count, uint32_t *met) {
    if (target > *met || target >= node_count) {
        return false;
    }
    if (target == *met) {
        (*met)++;
    }
    return true;
}

// Reads the arcs of one node; features rise strictly.
static bool read_arcs(Source *source, Node *node, uint32_t node_count, uint32_t *met) {
    uint32_t least_feature = 0;
    for (uint32_t index = 0; index < node->arc_count; index++) {
        Arc *arc = &node->arcs[index];
        if (!next_word(source, &arc->feature) || !next_word(source, &arc->target)) {
            return false;
        }
        if (arc->feature < least_feature || arc->feature >= FEATURE_END) {
            return false;
        }
        if (!meet_target(arc->target, node_count, met)) {
            return false;
        }
        least_feature = arc->feature + 1;
    }
    return true;
}

static bool read_node(Source *source, Node *node, uint32_t node_count, uint32_t *met) {
    uint32_t head;
    if (!next_word(source, &head) || head >= HEAD_END) {
        return false;
    }
    if (head >= FEATURE_END) {
        node->has_atom = true;
        node->atom = head - FEATURE_END;
        return true;
    }
    if (head > words_left(source) / 2) {
        return false;
    }
    node->arcs = zeroed(head, sizeof(Arc));
    node->arc_count = head;
    return read_arcs(source, node, node_count, met);
}

// Reads a graph; each node has been met before its own head is read.
static bool read_graph(Source *source, Graph *graph) {
    uint32_t node_count;
    if (!next_count(source, 1, &node_count) || node_count == 0) {
        return false;
    }
    graph->nodes = zeroed(node_count, sizeof(Node));
    graph->node_count = node_count;
    uint32_t met = 1;
    for (uint32_t node = 0; node < node_count; node++) {
        if (node >= met || !read_node(source, &graph->nodes[node], node_count, &met)) {
            return false;
        }
    }
    return true;
}

static bool read_description(Source *source, int nesting_left, Description *description);

// Reads a disjunction whose alternatives may nest `nesting_left` deep, themselves counted.
static bool read_disjunction(Source *source, int nesting_left, Disjunction *disjunction) {
    uint32_t count;
    if (nesting_left == 0 || !next_count(source, 3, &count) || count < 2) {
        return false;
    }
    disjunction->alternatives = zeroed(count, sizeof(Description));
    disjunction->alternative_count = count;
    for (uint32_t index = 0; index < count; index++) {
        if (!read_description(source, nesting_left - 1, &disjunction->alternatives[index])) {
            return false;
        }
    }
    return true;
}

// Fills a zeroed description; after a failure what was filled can still be freed.
static bool read_description(Source *source, int nesting_left, Description *description) {
    uint32_t count;
    if (!read_graph(source, &description->graph) || !next_count(source, 7, &count)) {
        return false;
    }
    description->disjunctions = zeroed(count, sizeof(Disjunction));
    description->disjunction_count = count;
    for (uint32_t index = 0; index < count; index++) {
        if (!read_disjunction(source, nesting_left, &description->disjunctions[index])) {
            return false;
        }
    }
    return true;
}

bool description_read(const uint32_t *words, size_t length, Description *description) {
    Source source = {words, length, 0};
    *description = (Description){0};
    if (read_description(&source, DEEPEST, description) && words_left(&source) == 0) {
        return true;
    }
    description_free(description);
    return false;
}

static void write_node(const Node *node, Words *words) {
    words_add(words, node->has_atom ? FEATURE_END + node->atom : node->arc_count);
    for (uint32_t index = 0; index < node->arc_count; index++) {
        words_add(words, node->arcs[index].feature);
        words_add(words, node->arcs[index].target);
    }
}

static void write_graph(const Graph *graph, Words *words) {
    words_add(words, graph->node_count);
    for (uint32_t node = 0; node < graph->node_count; node++) {
        write_node(&graph->nodes[node], words);
    }
}

static void write_disjunction(const Disjunction *disjunction, Words *words) {
    words_add(words, disjunction->alternative_count);
    for (uint32_t index = 0; index < disjunction->alternative_count; index++) {
        description_write(&disjunction->alternatives[index], words);
    }
}

void description_write(const Description *description, Words *words) {
    write_graph(&description->graph, words);
    words_add(words, description->disjunction_count);
    for (uint32_t index = 0; index < description->disjunction_count; index++) {
        write_disjunction(&description->disjunctions[index], words);
    }
}
