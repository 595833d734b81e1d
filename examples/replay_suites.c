// Runs stored suites of the second program through the C entry point, and compares what comes of each with what is
// stored: the number, the record, the counts and every word of both areas. Standard input has the suites as
// second/README.md says; what is printed is how many came out as stored, by their numbers.
#include "bublastyr.h"

#include <stdio.h>
#include <stdlib.h>
#include <string.h>

#define MOST_TESTS 100
#define MOST_WORDS 4096
#define MOST_WORKING 20000
#define CELLS 36

static struct bublastyr_test tests[MOST_TESTS];
static uint32_t words[MOST_WORDS], result[MOST_WORDS], expected[MOST_WORDS];
static uint32_t working[MOST_WORKING];

static void broken(const char *what) {
    fprintf(stderr, "the stored suites are broken: %s\n", what);
    exit(EXIT_FAILURE);
}

static uint32_t next(void) {
    unsigned char bytes[4];
    if (fread(bytes, 1, sizeof bytes, stdin) != sizeof bytes) {
        broken("they end too early");
    }
    return (uint32_t)bytes[0] | (uint32_t)bytes[1] << 8 | (uint32_t)bytes[2] << 16 |
           (uint32_t)bytes[3] << 24;
}

// A number that is at most `most`.
static uint32_t bounded(uint32_t most) {
    uint32_t number = next();
    if (most < number) {
        broken("a number is too large");
    }
    return number;
}

static void fill(uint32_t *at, uint32_t count) {
    for (uint32_t index = 0; index < count; index++) {
        at[index] = next();
    }
}

// What stands at a place before a suite is run.
static uint32_t before(uint32_t place) {
    return place % 4093 * 1048573 + 1;
}

static void prepare(uint32_t *at, uint32_t count) {
    for (uint32_t index = 0; index < count; index++) {
        at[index] = before(index);
    }
}

static void read_tests(uint32_t count) {
    for (uint32_t index = 0; index < count; index++) {
        uint32_t row[7];
        fill(row, 7);
        tests[index] =
            (struct bublastyr_test){row[0], row[1], row[2], row[3], row[4], row[5], row[6]};
    }
}

// Whether an area has these words in front, and else what stood there before.
static int area_right(const uint32_t *area, uint32_t count, const uint32_t *front, uint32_t size) {
    if (count < size || memcmp(area, front, size * sizeof *area) != 0) {
        return 0;
    }
    for (uint32_t index = size; index < count; index++) {
        if (area[index] != before(index)) {
            return 0;
        }
    }
    return 1;
}

// Runs the suite whose number of tests has been read: whether it comes out as stored. The stored number goes to `stored`.
static int replayed(uint32_t count, uint32_t *stored) {
    static const uint32_t zeros[BUBLASTYR_WORKING];
    uint32_t counts[3][12], cells[CELLS], row[3];
    struct bublastyr_running running = {before(0), before(1), before(2)};
    read_tests(count);
    uint32_t space = bounded(MOST_WORDS);
    fill(words, space);
    uint32_t room = bounded(MOST_WORDS), work = bounded(MOST_WORKING);
    *stored = next();
    fill(row, 3);
    fill(cells, CELLS);
    uint32_t changed = bounded(MOST_WORDS);
    fill(expected, changed);
    uint32_t wiped = bounded(1);
    prepare(result, room);
    prepare(working, work);
    prepare(&counts[0][0], CELLS);
    uint32_t number =
        bublastyr_suite(tests, count, words, space, result, room, working, work, &running, counts);
    return number == *stored && running.run == row[0] && running.good == row[1] &&
           running.first == row[2] && memcmp(counts, cells, sizeof cells) == 0 &&
           area_right(result, room, expected, changed) &&
           area_right(working, work, zeros, wiped ? BUBLASTYR_WORKING : 0);
}

int main(void) {
    unsigned right[4] = {0}, wrong = 0;
    for (uint32_t count = next(); count != UINT32_MAX; count = next()) {
        uint32_t stored = 0;
        if (MOST_TESTS < count) {
            broken("a table is too long");
        }
        if (replayed(count, &stored)) {
            right[stored == 0 ? 0 : stored - 29]++;
        } else {
            wrong++;
        }
    }
    printf("suites as stored with number 0: %u, 30: %u, 31: %u, 32: %u\notherwise: %u\n", right[0],
           right[1], right[2], right[3], wrong);
    return wrong == 0 ? EXIT_SUCCESS : EXIT_FAILURE;
}
