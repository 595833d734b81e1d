// Reading pairs of definite descriptions, and telling where they clash.
#include "clash_text.h"

#include "bytes.h"
#include "call.h"
#include "clash_node.h"

#include <inttypes.h>

static bool read_one(const Words *words, Description *description) {
    if (!description_read(words->at, words->count, description)) {
        return false;
    }
    bool definite = description->disjunction_count == 0;
    if (!definite) {
        description_free(description);
    }
    return definite;
}

bool definite_read(const Words *first, const Words *second, Pair *pair) {
    if (!read_one(first, &pair->first)) {
        return false;
    }
    bool good = read_one(second, &pair->second);
    if (!good) {
        description_free(&pair->first);
    }
    return good;
}

static void tell_node(const Pair *pair) {
    uint32_t node;
    if (clash_node(&pair->first.graph, &pair->second.graph, &node)) {
        printf("node %" PRIu32 "\n", node);
    } else {
        puts("no clash");
    }
}

static void answer_line(const Bytes *line) {
    Call call;
    Pair pair;
    if (parse_inputs(line->at, line->count, &call) &&
        definite_read(&call.first, &call.second, &pair)) {
        tell_node(&pair);
        pair_free(&pair);
    } else {
        puts("bad input");
    }
    call_free(&call);
}

int run_nodes(void) {
    Bytes line = {0};
    while (line_next(&line)) {
        answer_line(&line);
    }
    bytes_free(&line);
    return 0;
}
