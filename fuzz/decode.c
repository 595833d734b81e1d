// Calls out of bytes: three ways to read them.
#include "decode.h"

enum {
    SEPARATOR = 0xFF,    // parts the two inputs where bytes are small words
    FIRST_ATOM = 0xC0,   // bytes from here to the first edge are atoms 10 and up
    FIRST_EDGE = 0xE0,   // bytes from here are words at the edges
    MOST_NODES = 8,      // of a graph that is built
    LONGEST_BUILT = 1100 // words after which nothing more is built
};

typedef struct {
    const uint8_t *next;
    size_t left;
} Bytes;

// The next byte; 0 when there is none.
static uint8_t take(Bytes *bytes) {
    if (bytes->left == 0) {
        return 0;
    }
    bytes->left--;
    return *bytes->next++;
}

// Adds an arc with the next feature that the byte says; it leads to a node met, or to a new one.
static void build_arc(Bytes *bytes, Words *words, uint32_t *feature, uint32_t *nodes) {
    uint8_t byte = take(bytes);
    uint32_t target = (byte >> 2) % (*nodes + 1);
    if (target == *nodes && *nodes == MOST_NODES) {
        target = 0;
    }
    *nodes += target == *nodes;
    *feature += 1 + (byte & 3) % 3;
    words_add(words, *feature);
    words_add(words, target);
}

static void build_node(Bytes *bytes, Words *words, uint32_t *nodes) {
    uint8_t byte = take(bytes);
    if (byte >= 0x80) {
        words_add(words, FEATURE_END + 10 + (byte & 3));
        return;
    }
    uint32_t arcs = byte % 5;
    uint32_t feature = 0;
    words_add(words, arcs);
    for (uint32_t arc = 0; arc < arcs; arc++) {
        build_arc(bytes, words, &feature, nodes);
    }
}

static void build_graph(Bytes *bytes, Words *words) {
    size_t start = words->count;
    uint32_t nodes = 1;
    words_add(words, 0);
    for (uint32_t node = 0; node < nodes; node++) {
        build_node(bytes, words, &nodes);
    }
    words->at[start] = nodes;
}

// Builds a description whose alternatives may be nested so many levels deep.
static void build_description(Bytes *bytes, Words *words, int levels) {
    build_graph(bytes, words);
    uint8_t byte = take(bytes);
    uint32_t disjunctions = levels > 0 && words->count < LONGEST_BUILT ? byte % 4 : 0;
    disjunctions += disjunctions == 3 ? byte >> 4 : 0;
    words_add(words, disjunctions);
    for (uint32_t index = 0; index < disjunctions; index++) {
        uint8_t alternatives = take(bytes);
        uint32_t count = 2 + (alternatives % 8 == 7 ? alternatives >> 3 : alternatives % 3);
        words_add(words, count);
        for (uint32_t alternative = 0; alternative < count; alternative++) {
            build_description(bytes, words, levels - 1);
        }
    }
}

static void build_inputs(Bytes *bytes, Call *call) {
    build_description(bytes, &call->first, DEEPEST);
    build_description(bytes, &call->second, DEEPEST);
}

static uint32_t edge_word(Bytes *bytes, uint8_t byte) {
    static const uint32_t edges[] = {1023,   1024,   65534,  65535,          65536,
                                     131070, 131071, 131072, 0x7FFFFFFF,     0x80000000,
                                     65792,  196608, 256,    UINT32_MAX - 1, UINT32_MAX};
    uint32_t index = (uint32_t)byte - FIRST_EDGE;
    if (index < sizeof edges / sizeof *edges) {
        return edges[index];
    }
    uint32_t low = take(bytes);
    return low | (uint32_t)take(bytes) << 8;
}

static uint32_t small_word(Bytes *bytes) {
    uint8_t byte = take(bytes);
    if (byte < FIRST_ATOM) {
        return byte;
    }
    return byte < FIRST_EDGE ? FEATURE_END + 10 + (uint32_t)byte - FIRST_ATOM
                             : edge_word(bytes, byte);
}

static void small_words(Bytes *bytes, Call *call) {
    while (bytes->left > 0 && *bytes->next != SEPARATOR) {
        words_add(&call->first, small_word(bytes));
    }
    take(bytes);
    while (bytes->left > 0) {
        words_add(&call->second, small_word(bytes));
    }
}

static uint32_t any_word(Bytes *bytes) {
    uint32_t word = 0;
    for (int shift = 0; shift < 32; shift += 8) {
        word |= (uint32_t)take(bytes) << shift;
    }
    return word;
}

// The first byte is the number of words of the first input.
static void any_words(Bytes *bytes, Call *call) {
    size_t first = take(bytes);
    while (bytes->left > 0) {
        words_add(call->first.count < first ? &call->first : &call->second, any_word(bytes));
    }
}

static uint32_t decode_work(uint8_t byte) {
    static const uint32_t sizes[] = {0, 1, WORKING_NEEDED - 1, WORKING_NEEDED + 1, UINT32_MAX};
    return byte >= 0xF0 ? sizes[byte % 5] : WORKING_NEEDED;
}

Call decode_call(const uint8_t *data, size_t count) {
    Bytes bytes = {data, count};
    Call call = {0};
    uint8_t way = take(&bytes);
    uint8_t mode = take(&bytes);
    uint8_t room = take(&bytes);
    call.mode = mode < 0xF0 ? mode % 3 : mode % 4 == 3 ? UINT32_MAX : 3u + mode % 4;
    call.room = room < 0x80 ? room : 16u * room;
    call.work = decode_work(take(&bytes));
    if (way % 4 < 2) {
        build_inputs(&bytes, &call);
    } else if (way % 4 == 2) {
        small_words(&bytes, &call);
    } else {
        any_words(&bytes, &call);
    }
    return call;
}
