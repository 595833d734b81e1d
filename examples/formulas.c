// Types descriptions as formulas through the C entry points, unifies two of them, and shows what a refusal tells.
#include "bublastyr.h"

#include <stdio.h>
#include <stdlib.h>
#include <string.h>

#define COUNT(words) (sizeof(words) / sizeof(words)[0])

// No description of a formula has more words.
#define LONGEST_DESCRIPTION 1024

static uint32_t first[LONGEST_DESCRIPTION];
static uint32_t second[LONGEST_DESCRIPTION];
static uint32_t result[BUBLASTYR_LONGEST_RESULT];
static uint32_t working[BUBLASTYR_WORKING];

// Says what was asked and answered, and stops where the number is not the one that is expected.
static void expect(const char *what, uint32_t found, uint32_t number, const uint32_t told[2]) {
    printf("%s: %u, told %u and %u\n", what, (unsigned)found, (unsigned)told[0], (unsigned)told[1]);
    if (found != number) {
        exit(1);
    }
}

// Asks for the description of a formula, and says what is told of it: the length and the byte.
static uint32_t describe(const char *text, uint32_t *words, size_t room, uint32_t number) {
    uint32_t told[2];
    uint32_t found = bublastyr_formula((const uint8_t *)text, strlen(text), words, room, told);
    expect(text, found, number, told);
    return told[0];
}

static void print_words(const uint32_t *words, uint32_t count) {
    for (uint32_t index = 0; index < count; index++) {
        printf(index == 0 ? "%u" : " %u", (unsigned)words[index]);
    }
    putchar('\n');
}

int main(void) {
    uint32_t first_count = describe("f1:(a10 | a11)", first, COUNT(first), BUBLASTYR_DONE);
    print_words(first, first_count);
    uint32_t second_count = describe("[<f1>,<f2>]", second, COUNT(second), BUBLASTYR_DONE);
    print_words(second, second_count);
    uint32_t unified[3];
    uint32_t number = bublastyr_unify(2, first, first_count, second, second_count, result,
                                      COUNT(result), working, COUNT(working), unified);
    expect("both, unified in mode 2", number, BUBLASTYR_DONE, unified);
    print_words(result, unified[0]);

    describe("f1:(a10 | )", first, COUNT(first), BUBLASTYR_BAD_TEXT);
    describe("f1:a10 & f1:a11", first, COUNT(first), BUBLASTYR_FORMULA_CLASH);
    describe("f1:(a10 | a11)", first, 18, BUBLASTYR_SHORT_RESULT);
    // a pointer may be null where its length is 0
    uint32_t told[2];
    number = bublastyr_formula(NULL, 0, NULL, 0, told);
    expect("no text", number, BUBLASTYR_BAD_TEXT, told);
    number = bublastyr_formula((const uint8_t *)"NIL", 3, NULL, 0, told);
    expect("NIL in no area", number, BUBLASTYR_SHORT_RESULT, told);
    return 0;
}
