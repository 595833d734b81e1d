// Lends null pointers where a length is 0, to the entry points for C, and holds every answer to document 01 and
// requests Six and Eight.
// A working area of no words is too small: 2. An input of none has no node count, and "words missing" is malformed: 4
// or 5. A result has three words at least, and an area of none no room for them: 8. So none of the calls answers 0.
#include "bublastyr.h"

#include <stdio.h>
#include <stdlib.h>

#define COUNT(array) (sizeof(array) / sizeof(array)[0])
#define ALL(array)                                                                                 \
    { array, COUNT(array) }
#define NONE                                                                                       \
    { NULL, 0 }

// Known inputs of document 01, by its names: N says nothing; in A feature 1 is atom 10, in B atom 11; P is A or B; S is
// A, or that features 1 and 2 are each atom 10; L is a cycle. Beside them, Q is that feature 1 is atom 12 or atom 13.
static const uint32_t N[] = {1, 0, 0};
static const uint32_t A[] = {2, 1, 1, 1, 65546, 0};
static const uint32_t B[] = {2, 1, 1, 1, 65547, 0};
static const uint32_t P[] = {1, 0, 1, 2, 2, 1, 1, 1, 65546, 0, 2, 1, 1, 1, 65547, 0};
static const uint32_t S[] = {1, 0, 1, 2, 2, 1, 1, 1, 65546, 0, 3, 2, 1, 1, 2, 2, 65546, 65546, 0};
static const uint32_t L[] = {1, 1, 1, 0, 0};
static const uint32_t Q[] = {1, 0, 1, 2, 2, 1, 1, 1, 65548, 0, 2, 1, 1, 1, 65549, 0};

// 13 disjunctions of N or N, which have 8,192 choices.
#define N_OR_N 2, 1, 0, 0, 1, 0, 0
static const uint32_t many[] = {1,      0,      13,     N_OR_N, N_OR_N, N_OR_N, N_OR_N, N_OR_N,
                                N_OR_N, N_OR_N, N_OR_N, N_OR_N, N_OR_N, N_OR_N, N_OR_N, N_OR_N};

// A word more than an input may have.
static const uint32_t long_input[1025];

struct words {
    const uint32_t *at;
    size_t count;
};

struct area {
    uint32_t *at;
    size_t count;
};

// Areas that are filled with a word before each call. The working area has a word more than it must.
#define FILL 77
static uint32_t room[3];
static uint32_t work[BUBLASTYR_WORKING + 1];

// Readings are 0 in all of them: only number 0 counts any.
static const struct {
    uint32_t mode;
    struct words first, second;
    struct area result, working;
    uint32_t number, length, node;
} unifications[] = {
    // all four are null: the mode is looked at first, the working area next
    {3, NONE, NONE, NONE, NONE, 1, 0, 0},
    {0, NONE, NONE, NONE, NONE, 2, 0, 0},
    {1, NONE, NONE, NONE, NONE, 2, 0, 0},
    {2, NONE, NONE, NONE, NONE, 2, 0, 0},
    // the working area alone is null: no words are under 16,384
    {0, ALL(N), ALL(N), ALL(room), NONE, 2, 0, 0},
    {2, ALL(N), ALL(N), ALL(room), NONE, 2, 0, 0},
    // one input is null and the other too long: 3 comes before 4 and 5
    {0, NONE, ALL(long_input), NONE, ALL(work), 3, 0, 0},
    {2, ALL(long_input), NONE, NONE, ALL(work), 3, 0, 0},
    // the first input is null: malformed, whatever the second is
    {0, NONE, NONE, NONE, ALL(work), 4, 0, 0},
    {1, NONE, ALL(N), NONE, ALL(work), 4, 0, 0},
    {2, NONE, ALL(N), ALL(room), ALL(work), 4, 0, 0},
    // the second input is null, and the first is well formed
    {0, ALL(N), NONE, NONE, ALL(work), 5, 0, 0},
    {1, ALL(N), NONE, NONE, ALL(work), 5, 0, 0},
    {2, ALL(N), NONE, ALL(room), ALL(work), 5, 0, 0},
    // the result area alone is null: 6, 7, 10 and 11 come before 8. A with B is a clash (case 3) at node 1, where atom
    // 10 and atom 11 meet; 8,192 choices are over 4,096; in L feature 1 leads to the root, which can be no atom, so both
    // alternatives of P fail; each alternative of P and of Q stands by itself, but no two do together
    {0, ALL(A), ALL(B), NONE, ALL(work), 6, 0, 1},
    {1, ALL(A), ALL(B), NONE, ALL(work), 6, 0, 1},
    {2, ALL(A), ALL(B), NONE, ALL(work), 6, 0, 1},
    {2, ALL(many), ALL(N), NONE, ALL(work), 7, 0, 0},
    {1, ALL(L), ALL(P), NONE, ALL(work), 10, 0, 0},
    {2, ALL(L), ALL(P), NONE, ALL(work), 10, 0, 0},
    {2, ALL(P), ALL(Q), NONE, ALL(work), 11, 0, 0},
    // the same, unified: N with N is N, of 3 words (case 1; there is nothing to drop or fold); P with A has 19 words in
    // mode 0 (case 5) and the 6 of A in mode 1 (case 6); P with S has 22 in mode 2 (case 7)
    {0, ALL(N), ALL(N), NONE, ALL(work), 8, 3, 0},
    {1, ALL(N), ALL(N), NONE, ALL(work), 8, 3, 0},
    {2, ALL(N), ALL(N), NONE, ALL(work), 8, 3, 0},
    {0, ALL(P), ALL(A), NONE, ALL(work), 8, 19, 0},
    {1, ALL(P), ALL(A), NONE, ALL(work), 8, 6, 0},
    {2, ALL(P), ALL(S), NONE, ALL(work), 8, 22, 0},
};

static const struct {
    struct words structure, description;
    uint32_t number;
} fits[] = {
    // 3 comes before 4 and 5
    {NONE, ALL(long_input), 3},
    {ALL(long_input), NONE, 3},
    // a structure of no words is malformed, whatever the description is; then a description of no words
    {NONE, NONE, 4},
    {NONE, ALL(N), 4},
    {ALL(N), NONE, 5},
    // 5 comes before 9, of a structure with disjunctions
    {ALL(P), NONE, 5},
};

// A library of no descriptions is one block, which is all zeros: its count, its number and its check are 0.
static uint8_t block[BUBLASTYR_BLOCK];

static void expect(const char *what, size_t row, uint32_t found, uint32_t expected) {
    if (found != expected) {
        printf("null: %s of row %zu is %u, not %u\n", what, row, (unsigned)found,
               (unsigned)expected);
        exit(1);
    }
}

static void fill(uint32_t *words, size_t count) {
    for (size_t index = 0; index < count; index++) {
        words[index] = FILL;
    }
}

// "Working area: untouched by 1 to 5; after 6, 7, 8 and 0 its first 16,384 words are zero and later ones untouched",
// and after 10 and 11 as after 6; the result area is written by 0 alone.
static void expect_areas(size_t row, uint32_t number) {
    for (size_t index = 0; index < COUNT(work); index++) {
        expect("the working area", row, work[index],
               number > 5 && index < BUBLASTYR_WORKING ? 0 : FILL);
    }
    for (size_t index = 0; index < COUNT(room); index++) {
        expect("the result area", row, room[index], FILL);
    }
}

// No bytes are no library: 40. No entries and no words make one of one block, which has no room in a file of no bytes: 46;
// it lists to no words, and has no description: 43.
static void expect_libraries(void) {
    uint32_t told[1] = {FILL};
    expect("listing nothing", 0, bublastyr_library_list(NULL, 0, NULL, 0, told), 40);
    expect("reading nothing", 0, bublastyr_library_read(NULL, 0, 7, NULL, 0, told), 40);
    expect("what is told", 0, told[0], 0);
    expect("writing nowhere", 0, bublastyr_library_write(NULL, 0, NULL, 0, NULL, 0, told), 46);
    expect("the bytes needed", 0, told[0], COUNT(block));
    block[0] = FILL;
    expect("writing nothing", 0,
           bublastyr_library_write(NULL, 0, NULL, 0, block, COUNT(block), told), 0);
    expect("the bytes written", 0, told[0], COUNT(block));
    expect("the first of them", 0, block[0], 0);
    expect("listing", 0, bublastyr_library_list(block, COUNT(block), NULL, 0, told), 0);
    expect("the words listed", 0, told[0], 0);
    expect("reading", 0, bublastyr_library_read(block, COUNT(block), 7, NULL, 0, told), 43);
}

int main(void) {
    for (size_t row = 0; row < COUNT(unifications); row++) {
        struct words first = unifications[row].first, second = unifications[row].second;
        struct area result = unifications[row].result, working = unifications[row].working;
        uint32_t told[3] = {FILL, FILL, FILL};
        fill(room, COUNT(room));
        fill(work, COUNT(work));
        uint32_t number =
            bublastyr_unify(unifications[row].mode, first.at, first.count, second.at, second.count,
                            result.at, result.count, working.at, working.count, told);
        expect("the number", row, number, unifications[row].number);
        expect("the length", row, told[0], unifications[row].length);
        expect("the readings", row, told[1], 0);
        expect("the node", row, told[2], unifications[row].node);
        expect_areas(row, number);
    }
    for (size_t row = 0; row < COUNT(fits); row++) {
        struct words structure = fits[row].structure, description = fits[row].description;
        uint32_t number =
            bublastyr_fit(structure.at, structure.count, description.at, description.count);
        expect("the number of the fit test", row, number, fits[row].number);
    }
    expect_libraries();
    printf("examples: null.c has %zu unifications, %zu fit tests and libraries answered as the "
           "documents say\n",
           COUNT(unifications), COUNT(fits));
    return 0;
}
