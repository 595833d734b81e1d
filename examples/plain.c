// Runs known inputs of document 01 by both engines, and prints what each answers: one line for each pair, and whether the
// plain engine left both areas as the fast one did.
#include "bublastyr.h"

#include <stdio.h>
#include <string.h>

#define COUNT(array) (sizeof(array) / sizeof(array)[0])

// In A feature 1 is atom 10, in B atom 11; P is A or B; S is A, or that features 1 and 2 are each atom 10; L is a cycle;
// Q is that feature 1 is atom 12 or atom 13.
static const uint32_t A[] = {2, 1, 1, 1, 65546, 0};
static const uint32_t B[] = {2, 1, 1, 1, 65547, 0};
static const uint32_t P[] = {1, 0, 1, 2, 2, 1, 1, 1, 65546, 0, 2, 1, 1, 1, 65547, 0};
static const uint32_t S[] = {1, 0, 1, 2, 2, 1, 1, 1, 65546, 0, 3, 2, 1, 1, 2, 2, 65546, 65546, 0};
static const uint32_t L[] = {1, 1, 1, 0, 0};
static const uint32_t Q[] = {1, 0, 1, 2, 2, 1, 1, 1, 65548, 0, 2, 1, 1, 1, 65549, 0};
static const uint32_t wrong[] = {1, 0, 1, 1, 2, 1, 1, 1, 65546, 0};

static const struct {
    const char *name;
    const uint32_t *first;
    size_t first_len;
    const uint32_t *second;
    size_t second_len;
} pairs[] = {
    {"P with S", P, COUNT(P), S, COUNT(S)},
    {"P with P", P, COUNT(P), P, COUNT(P)},
    {"P with A", P, COUNT(P), A, COUNT(A)},
    {"A with B", A, COUNT(A), B, COUNT(B)},
    {"L with P", L, COUNT(L), P, COUNT(P)},
    {"P with Q", P, COUNT(P), Q, COUNT(Q)},
    {"malformed with A", wrong, COUNT(wrong), A, COUNT(A)},
};

// What an engine leaves: its number, length, readings and node, and both areas, which hold something else before.
struct left {
    uint32_t number, told[3], result[64], working[BUBLASTYR_WORKING];
};

static struct left fast, plain;

int main(void) {
    for (size_t i = 0; i < COUNT(pairs); i++) {
        memset(&fast, 77, sizeof fast);
        memset(&plain, 77, sizeof plain);
        fast.number = bublastyr_unify(2, pairs[i].first, pairs[i].first_len, pairs[i].second,
                                      pairs[i].second_len, fast.result, COUNT(fast.result),
                                      fast.working, COUNT(fast.working), fast.told);
        plain.number = bublastyr_plain(pairs[i].first, pairs[i].first_len, pairs[i].second,
                                       pairs[i].second_len, plain.result, COUNT(plain.result),
                                       plain.working, COUNT(plain.working), plain.told);
        printf("%s: answer %u words %u readings %u node %u, %s\n", pairs[i].name, plain.number,
               plain.told[0], plain.told[1], plain.told[2],
               memcmp(&fast, &plain, sizeof fast) == 0 ? "alike" : "not alike");
    }
    return 0;
}
