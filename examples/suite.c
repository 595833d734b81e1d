// Runs a small night's suite through the C entry point: one test that passes, one that clashes as it should, and one
// that comes out other than expected; then a table that is refused.
#include "bublastyr.h"

#include <stdio.h>
#include <stdlib.h>

#define COUNT(array) (sizeof(array) / sizeof(array)[0])

// One area with all descriptions: at 0, feature 1 is atom 10; at 6, feature 1 is atom 11; at 12, it is one or the other.
static const uint32_t words[] = {2, 1, 1, 1, 65546, 0, 2,     1, 1, 1, 65547, 0, 1,     0,
                                 1, 2, 2, 1, 1,     1, 65546, 0, 2, 1, 1,     1, 65547, 0};

static const struct bublastyr_test night[] = {
    {2, BUBLASTYR_DONE, 1, 0, 6, 12, 16},   // atom 10 leaves one reading
    {0, BUBLASTYR_CLASH, 0, 0, 6, 6, 6},    // atom 10 and atom 11 clash
    {2, BUBLASTYR_DONE, 1, 12, 16, 12, 16}, // either with itself has two readings, not one
};

// The second record names a word beyond the area.
static const struct bublastyr_test beyond[] = {
    {2, BUBLASTYR_DONE, 1, 0, 6, 12, 16},
    {3, BUBLASTYR_DONE, 1, 12, 17, 0, 6},
};

static uint32_t result[BUBLASTYR_LONGEST_RESULT];
static uint32_t working[BUBLASTYR_WORKING];
static struct bublastyr_running running;
static uint32_t counts[3][12];

static uint32_t run(const struct bublastyr_test *tests, size_t tests_len) {
    return bublastyr_suite(tests, tests_len, words, COUNT(words), result, COUNT(result), working,
                           COUNT(working), &running, counts);
}

static void print_record(void) {
    printf("run %u, good %u, first %u\n", (unsigned)running.run, (unsigned)running.good,
           (unsigned)running.first);
}

int main(void) {
    uint32_t number = run(night, COUNT(night));
    printf("the night: %u\n", (unsigned)number);
    if (number != BUBLASTYR_DONE) {
        return EXIT_FAILURE;
    }
    print_record();
    for (size_t mode = 0; mode < COUNT(counts); mode++) {
        printf("mode %zu:", mode);
        for (size_t index = 0; index < COUNT(counts[mode]); index++) {
            printf(" %u", (unsigned)counts[mode][index]);
        }
        putchar('\n');
    }
    number = run(beyond, COUNT(beyond));
    printf("a record beyond the area: %u\n", (unsigned)number);
    if (number != BUBLASTYR_BEYOND_WORDS) {
        return EXIT_FAILURE;
    }
    print_record();
    printf("no tests: %u\n", (unsigned)run(NULL, 0));
    print_record();
    return EXIT_SUCCESS;
}
