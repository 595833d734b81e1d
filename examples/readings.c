// Unifies two descriptions through the C entry points, and tests structures against one of them.
#include "bublastyr.h"

#include <stdio.h>
#include <stdlib.h>

#define COUNT(words) (sizeof(words) / sizeof(words)[0])

// Feature 1 is atom 10, or it is atom 11.
static const uint32_t either[] = {1, 0, 1, 2, 2, 1, 1, 1, 65546, 0, 2, 1, 1, 1, 65547, 0};

// Features 1 and 2 share a value.
static const uint32_t shared[] = {2, 2, 1, 1, 2, 1, 0, 0};

// Feature 1 is atom 10; and feature 2 is atom 10.
static const uint32_t first_ten[] = {2, 1, 1, 1, 65546, 0};
static const uint32_t second_ten[] = {2, 1, 2, 1, 65546, 0};

// Feature 3 of the value of feature 1 is atom 10, and feature 3 of the value of feature 2 atom 11.
static const uint32_t two_below[] = {5, 2, 1, 1, 2, 2, 1, 3, 3, 1, 3, 4, 65546, 65547, 0};

static uint32_t result[BUBLASTYR_LONGEST_RESULT];
static uint32_t working[BUBLASTYR_WORKING];

// Stops where a number is not the one that document 01 gives.
static void expect(const char *what, uint32_t found, uint32_t number) {
    printf("%s: %u\n", what, (unsigned)found);
    if (found != number) {
        exit(1);
    }
}

int main(void) {
    uint32_t told[3];
    expect("either, with shared, in mode 2",
           bublastyr_unify(2, either, COUNT(either), shared, COUNT(shared), result, COUNT(result),
                           working, COUNT(working), told),
           BUBLASTYR_DONE);
    printf("%u words, %u readings:", (unsigned)told[0], (unsigned)told[1]);
    for (uint32_t index = 0; index < told[0]; index++) {
        printf(" %u", (unsigned)result[index]);
    }
    putchar('\n');
    expect("the same in an area of 5 words",
           bublastyr_unify(2, either, COUNT(either), shared, COUNT(shared), result, 5, working,
                           COUNT(working), told),
           BUBLASTYR_NO_ROOM);
    printf("%u words are needed\n", (unsigned)told[0]);
    expect("shared, with two atoms below, in mode 0",
           bublastyr_unify(0, shared, COUNT(shared), two_below, COUNT(two_below), result,
                           COUNT(result), working, COUNT(working), told),
           BUBLASTYR_CLASH);
    // the nodes of the first graph, of which there are shared[0], are counted first
    printf("they clash at node %u, node %u of the second\n", (unsigned)told[2],
           (unsigned)(told[2] - shared[0]));
    expect("feature 1 is atom 10, against either",
           bublastyr_fit(first_ten, COUNT(first_ten), either, COUNT(either)), BUBLASTYR_DONE);
    expect("feature 2 is atom 10, against either",
           bublastyr_fit(second_ten, COUNT(second_ten), either, COUNT(either)), BUBLASTYR_CLASH);
    return 0;
}
