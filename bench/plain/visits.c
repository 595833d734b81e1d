// One call on two disjunctions of COUNT alternatives each, over nothing that is certain. In the first an alternative is one node;
// in the second a path of NODES nodes from the root. Where they clash, the one node bears an atom, so that a choice clashes at
// the first node of its second graph; where they agree it bears none.
// Usage: visits quick|plain|number COUNT NODES clash|agree
#include "bublastyr.h"

#include <stdio.h>
#include <stdlib.h>
#include <string.h>

static uint32_t words[1024], result[BUBLASTYR_LONGEST_RESULT], working[BUBLASTYR_WORKING];
static size_t length;

static void put(uint32_t word) {
    if (length < 1024)
        words[length] = word;
    length++;
}

// The alternative numbered i of the second disjunction: a path under the feature i.
static void put_path(uint32_t i, uint32_t nodes) {
    put(nodes);
    for (uint32_t node = 1; node < nodes; node++) {
        put(1);
        put(i);
        put(node);
    }
    put(0);
    put(0);
}

static void put_inputs(uint32_t count, uint32_t nodes, int clash) {
    put(1);
    put(0);
    put(2);
    put(count);
    for (uint32_t i = 0; i < count; i++) {
        put(1);
        put(clash ? 65536 + i : 0);
        put(0);
    }
    put(count);
    for (uint32_t i = 0; i < count; i++)
        put_path(i, nodes);
}

int main(int count, char **words_typed) {
    static const uint32_t nothing[] = {1, 0, 0};
    uint32_t told[3], number;
    if (count != 5)
        return 2;
    put_inputs((uint32_t)atoi(words_typed[2]), (uint32_t)atoi(words_typed[3]),
               strcmp(words_typed[4], "clash") == 0);
    if (strcmp(words_typed[1], "quick") == 0)
        number = bublastyr_unify(1, words, length, nothing, 3, result, BUBLASTYR_LONGEST_RESULT,
                                 working, BUBLASTYR_WORKING, told);
    else
        number = bublastyr_plain(words, length, nothing, 3, result, BUBLASTYR_LONGEST_RESULT,
                                 working, BUBLASTYR_WORKING, told);
    if (strcmp(words_typed[1], "number") == 0)
        printf("%u\n", (unsigned)number);
    return 0;
}
