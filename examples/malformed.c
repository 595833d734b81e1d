// Asks which of two inputs is malformed, and prints the cause, its value, and the words from the one that decides on.
#include "bublastyr.h"

#include <stdio.h>

#define COUNT(array) (sizeof(array) / sizeof(array)[0])
#define CASE(name)                                                                                 \
    { #name, name, COUNT(name) }

static const uint32_t fine[] = {1, 0, 0};
static const uint32_t cut_short[] = {2, 0};
static const uint32_t left_over[] = {1, 0, 0, 5, 6};
static const uint32_t no_nodes[] = {0, 7};
static const uint32_t bad_head[] = {1, 131072, 0};
static const uint32_t bad_feature[] = {1, 2, 5, 0, 5, 9, 0};
static const uint32_t bad_target[] = {3, 1, 1, 2, 0, 0, 0};
static const uint32_t not_met[] = {2, 0, 131072, 0};
static const uint32_t few_alternatives[] = {1, 0, 1, 1, 1, 0, 0};
static const uint32_t too_deep[] = {1, 0, 1, 2, 1, 0, 1, 2, 1, 0, 1, 2, 1, 0, 1, 2, 1, 0, 3};
static const uint32_t long_input[1025];

static const struct {
    const char *name;
    const uint32_t *at;
    size_t count;
} inputs[] = {CASE(fine),       CASE(cut_short), CASE(left_over),
              CASE(no_nodes),   CASE(bad_head),  CASE(bad_feature),
              CASE(bad_target), CASE(not_met),   CASE(few_alternatives),
              CASE(too_deep),   CASE(long_input)};

// The words of an input from a place on.
static void print_part(const uint32_t *at, size_t count, uint32_t place) {
    printf(", from word %u on:", (unsigned)place);
    for (size_t index = place; index < count; index++) {
        printf(" %u", (unsigned)at[index]);
    }
}

// What is told of two inputs.
static void ask(size_t first, size_t second) {
    uint32_t told[3];
    uint32_t number = bublastyr_malformed(inputs[first].at, inputs[first].count, inputs[second].at,
                                          inputs[second].count, told);
    size_t which = number == BUBLASTYR_BAD_SECOND ? second : first;
    printf("%s, %s: %u, cause %u, value %u", inputs[first].name, inputs[second].name,
           (unsigned)number, (unsigned)told[0], (unsigned)told[1]);
    print_part(inputs[which].at, inputs[which].count, told[2]);
    putchar('\n');
}

int main(void) {
    for (size_t index = 0; index < COUNT(inputs); index++) {
        ask(index, 0);
        ask(0, index);
    }
    // of two malformed inputs the first, unless one is too long
    ask(2, 1);
    ask(1, 10);
    return 0;
}
