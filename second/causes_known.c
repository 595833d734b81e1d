// Known causes: those that request Two and its readers name, every cause at every kind of place,
// and all short runs of words over small stocks.
#include "causes_check.h"

#include "call.h"
#include "check.h"
#include "known.h"

#include <inttypes.h>

#define MOST UINT32_MAX

typedef struct {
    const char *words;
    Cause cause;
    uint32_t data;
    size_t place;
    Expected expected;
} KnownCause;

// Alternatives nested four deep, up to the number of disjunctions of the innermost.
#define DEEP "1 0 1 2 1 0 1 2 1 0 1 2 1 0 1 2 1 0 "

static const KnownCause cases[] = {
    // words end, before a word of every role
    {"", CAUSE_WORDS_END, 0, 0, {ROLE_NODE_COUNT, 1, MOST, 0}},
    {"1", CAUSE_WORDS_END, 0, 1, {ROLE_HEAD, 0, 131071, 0}},
    {"2 0", CAUSE_WORDS_END, 0, 2, {ROLE_HEAD, 1, 0, 1}},
    {"3 0", CAUSE_WORDS_END, 0, 2, {ROLE_HEAD, 1, 0, 1}},
    {"4294967295 1 0 1", CAUSE_WORDS_END, 0, 4, {ROLE_HEAD, 0, 131071, 1}},
    {"1 65535", CAUSE_WORDS_END, 0, 2, {ROLE_FEATURE, 0, 65535, 0}},
    {"2 2 5 1", CAUSE_WORDS_END, 0, 4, {ROLE_FEATURE, 6, 65535, 0}},
    {"1 2 65535 0", CAUSE_WORDS_END, 0, 4, {ROLE_FEATURE, 65536, 65535, 0}},
    {"2 1 1", CAUSE_WORDS_END, 0, 3, {ROLE_TARGET, 0, 1, 0}},
    {"1 1 1", CAUSE_WORDS_END, 0, 3, {ROLE_TARGET, 0, 0, 0}},
    {"1 0", CAUSE_WORDS_END, 0, 2, {ROLE_DISJUNCTIONS, 0, MOST, 0}},
    {DEEP, CAUSE_WORDS_END, 0, 18, {ROLE_DISJUNCTIONS, 0, 0, 0}},
    {"1 0 4294967295", CAUSE_WORDS_END, 0, 3, {ROLE_ALTERNATIVES, 2, MOST, 0}},
    {"1 0 1 2 1 0 0", CAUSE_WORDS_END, 0, 7, {ROLE_NODE_COUNT, 1, MOST, 0}},
    {"1 0 2 2 1 0 0 1 0 0", CAUSE_WORDS_END, 0, 10, {ROLE_ALTERNATIVES, 2, MOST, 0}},
    // words left over
    {"1 0 0 0", CAUSE_LEFT_OVER, 0, 3, {ROLE_END, 1, 0, 0}},
    {N N, CAUSE_LEFT_OVER, 0, 3, {ROLE_END, 1, 0, 0}},
    {P "4294967295", CAUSE_LEFT_OVER, 0, 16, {ROLE_END, 1, 0, 0}},
    // no nodes
    {"0", CAUSE_NO_NODES, 0, 0, {ROLE_NODE_COUNT, 1, MOST, 0}},
    {"0 131072", CAUSE_NO_NODES, 0, 0, {ROLE_NODE_COUNT, 1, MOST, 0}},
    {"1 0 1 2 1 0 0 0", CAUSE_NO_NODES, 0, 7, {ROLE_NODE_COUNT, 1, MOST, 0}},
    // bad head
    {"1 131072", CAUSE_BAD_HEAD, 131072, 1, {ROLE_HEAD, 0, 131071, 0}},
    {"1 4294967295 0", CAUSE_BAD_HEAD, MOST, 1, {ROLE_HEAD, 0, 131071, 0}},
    {"2 1 1 1 131072 0", CAUSE_BAD_HEAD, 131072, 4, {ROLE_HEAD, 0, 131071, 1}},
    // feature out of range or not rising; it comes before its target
    {"1 1 65536 0 0", CAUSE_BAD_FEATURE, 0, 2, {ROLE_FEATURE, 0, 65535, 0}},
    {"1 1 65536 9 0", CAUSE_BAD_FEATURE, 0, 2, {ROLE_FEATURE, 0, 65535, 0}},
    {"1 2 5 0 5 9 0", CAUSE_BAD_FEATURE, 0, 4, {ROLE_FEATURE, 6, 65535, 0}},
    {"1 2 5 0 4 0 0", CAUSE_BAD_FEATURE, 0, 4, {ROLE_FEATURE, 6, 65535, 0}},
    {"1 2 5 0 65536 0 0", CAUSE_BAD_FEATURE, 0, 4, {ROLE_FEATURE, 6, 65535, 0}},
    {"1 2 65535 0 65535", CAUSE_BAD_FEATURE, 0, 4, {ROLE_FEATURE, 65536, 65535, 0}},
    {"1 65535 5 0 5", CAUSE_BAD_FEATURE, 0, 4, {ROLE_FEATURE, 6, 65535, 0}},
    // target out of turn, or not below the node count
    {"1 1 1 1 0", CAUSE_BAD_TARGET, 1, 3, {ROLE_TARGET, 0, 0, 0}},
    {"3 1 1 2", CAUSE_BAD_TARGET, 2, 3, {ROLE_TARGET, 0, 1, 0}},
    {"3 2 1 1 2 3", CAUSE_BAD_TARGET, 3, 5, {ROLE_TARGET, 0, 2, 0}},
    {"8 1 1 1 4 1 2 2 3 3 4 4 7", CAUSE_BAD_TARGET, 7, 12, {ROLE_TARGET, 0, 5, 0}},
    {"2 1 1 4294967295", CAUSE_BAD_TARGET, MOST, 3, {ROLE_TARGET, 0, 1, 0}},
    // node not yet met, at its own head and before a bad head
    {"2 0 7", CAUSE_NOT_MET, 0, 2, {ROLE_HEAD, 1, 0, 1}},
    {"2 0 131072", CAUSE_NOT_MET, 0, 2, {ROLE_HEAD, 1, 0, 1}},
    {"2 65546 0", CAUSE_NOT_MET, 0, 2, {ROLE_HEAD, 1, 0, 1}},
    {"3 1 1 1 0 0 0", CAUSE_NOT_MET, 0, 5, {ROLE_HEAD, 1, 0, 2}},
    {"3 1 1 1 131072 0 0", CAUSE_BAD_HEAD, 131072, 4, {ROLE_HEAD, 0, 131071, 1}},
    // fewer than two alternatives
    {"1 0 1 1 " A, CAUSE_FEW_ALTERNATIVES, 0, 3, {ROLE_ALTERNATIVES, 2, MOST, 0}},
    {"1 0 1 0", CAUSE_FEW_ALTERNATIVES, 0, 3, {ROLE_ALTERNATIVES, 2, MOST, 0}},
    {"1 0 2 2 1 0 0 1 0 0 1", CAUSE_FEW_ALTERNATIVES, 0, 10, {ROLE_ALTERNATIVES, 2, MOST, 0}},
    // nested too deep, at the number of disjunctions
    {DEEP "1 2 " N N, CAUSE_TOO_DEEP, 0, 18, {ROLE_DISJUNCTIONS, 0, 0, 0}},
    {DEEP "4294967295", CAUSE_TOO_DEEP, 0, 18, {ROLE_DISJUNCTIONS, 0, 0, 0}},
    {DEEP "0 1 0 1", CAUSE_TOO_DEEP, 0, 21, {ROLE_DISJUNCTIONS, 0, 0, 0}},
    // well formed
    {N, CAUSE_NONE, 0, 3, {ROLE_END, 1, 0, 0}},
    {"1 131071 0", CAUSE_NONE, 0, 3, {ROLE_END, 1, 0, 0}},
    {"1 1 65535 0 0", CAUSE_NONE, 0, 5, {ROLE_END, 1, 0, 0}},
    {P, CAUSE_NONE, 0, 16, {ROLE_END, 1, 0, 0}},
    {DEEP "0 " N N N N, CAUSE_NONE, 0, 31, {ROLE_END, 1, 0, 0}},
};

enum { CASES = sizeof cases / sizeof *cases };

static bool known_holds(const KnownCause *known) {
    Words words = words_from(known->words);
    Finding found = find_cause(words.at, words.count, NULL);
    const Expected *left = &found.expected;
    const Expected *right = &known->expected;
    bool same = found.cause == known->cause && found.data == known->data &&
                found.place == known->place && left->role == right->role &&
                left->least == right->least && left->most == right->most &&
                left->node == right->node;
    if (!same) {
        printf("known words %s: cause %d data %" PRIu32 " word %zu, role %d from %" PRIu32
               " to %" PRIu32 " node %" PRIu32 "\n",
               known->words, found.cause, found.data, found.place, left->role, left->least,
               left->most, left->node);
    }
    words_free(&words);
    return same;
}

// What is told of two inputs.
static bool told(const Words *first, const Words *second, uint32_t number, Cause cause,
                 uint32_t data, size_t place) {
    Malformed found = find_malformed(first, second);
    bool same = found.number == number && found.finding.cause == cause &&
                found.finding.data == data && found.finding.place == place;
    if (!same) {
        printf("known inputs of %zu and %zu words: number %" PRIu32 " cause %d data %" PRIu32
               " word %zu\n",
               first->count, second->count, found.number, found.finding.cause, found.finding.data,
               found.finding.place);
    }
    return same;
}

static bool inputs_hold(void) {
    Words sound = words_from(P);
    Words cut = words_from("2 0");
    Words broken = words_from("1 131072 0");
    Words none = {0};
    Words limit = {zeroed(1025, sizeof(uint32_t)), 1024, 1025};
    Words over = {limit.at, 1025, 1025};
    bool same = told(&sound, &sound, 0, CAUSE_NONE, 0, 16);
    same &= told(&cut, &broken, 4, CAUSE_WORDS_END, 0, 2);
    same &= told(&broken, &cut, 4, CAUSE_BAD_HEAD, 131072, 1);
    same &= told(&broken, &broken, 4, CAUSE_BAD_HEAD, 131072, 1);
    same &= told(&sound, &broken, 5, CAUSE_BAD_HEAD, 131072, 1);
    same &= told(&sound, &cut, 5, CAUSE_WORDS_END, 0, 2);
    same &= told(&none, &sound, 4, CAUSE_WORDS_END, 0, 0);
    same &= told(&sound, &none, 5, CAUSE_WORDS_END, 0, 0);
    same &= told(&none, &none, 4, CAUSE_WORDS_END, 0, 0);
    same &= told(&limit, &sound, 4, CAUSE_NO_NODES, 0, 0);
    same &= told(&over, &sound, 3, CAUSE_NONE, 0, 1025);
    same &= told(&broken, &over, 3, CAUSE_NONE, 0, 3);
    same &= told(&none, &over, 3, CAUSE_NONE, 0, 0);
    words_free(&limit);
    words_free(&broken);
    words_free(&cut);
    words_free(&sound);
    return same;
}

int run_known_causes(void) {
    bool all = true;
    for (size_t index = 0; index < CASES; index++) {
        all &= known_holds(&cases[index]);
    }
    all &= inputs_hold();
    printf("known: %d runs of words and 13 pairs of inputs with their causes: %s\n", (int)CASES,
           all ? "as request Two says" : "DIFFERENT");
    return all ? 0 : 1;
}

// Makes the words those that the digits of a number stand for, with the words of a stock for digits.
static void take_run(Words *words, const Words *stock, size_t length, uint64_t number) {
    words->count = 0;
    while (words->count < length) {
        words_add(words, stock->at[number % stock->count]);
        number /= stock->count;
    }
}

// Checks all runs of at most so many words over a stock, and counts them.
static uint64_t check_runs(CauseCheck *check, const char *stock_text, size_t longest) {
    Words stock = words_from(stock_text);
    Words words = {0};
    uint64_t checked = 0;
    uint64_t count = 1;
    for (size_t length = 0; length <= longest; length++) {
        for (uint64_t number = 0; number < count && check->failure == NULL; number++) {
            take_run(&words, &stock, length, number);
            check_cause(check, &words);
            checked++;
        }
        count *= stock.count;
    }
    words_free(&words);
    words_free(&stock);
    return checked;
}

int run_short_words(void) {
    CauseCheck check = {.random = {1}};
    uint64_t runs = check_runs(&check, "0 1 2 3 65535 65536 131072", 4);
    runs += check_runs(&check, "0 1 2 65536", 6);
    runs += check_runs(&check, "0 1 2", 8);
    printf("known: %" PRIu64 " short runs of words, %" PRIu64 " of them well formed: %s\n", runs,
           check.found[CAUSE_NONE],
           check.failure == NULL ? "as the reader has them" : check.failure);
    return check.failure == NULL ? 0 : 1;
}
