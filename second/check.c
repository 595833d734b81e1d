// The self-check: the outcomes of the unifier against plain enumeration on small random cases.
#include "check.h"

#include "call.h"
#include "clash_check.h"
#include "expect.h"
#include "faults.h"
#include "full.h"
#include "random.h"
#include "shapes.h"
#include "structures.h"

#include <inttypes.h>
#include <stdlib.h>
#include <string.h>

enum {
    MOST_WAYS = 1500,    // cases with more ways to choose are left out
    LONGEST_CASE = 160,  // and inputs with more words
    AMPLE_ROOM = 100000, // a result area for every result of the check
    LONGEST_LIST = 4     // descriptions unified one after another
};

// What the check works with, and what it has counted.
typedef struct {
    Random random;
    Structures structures;
    bool *satisfying; // by structure: whether it satisfies both inputs
    Sheet sheet;
    const char *failure; // what went wrong first, or null
    uint64_t successes;
    uint64_t clashes[3]; // by 6, 10 and 11
    uint64_t dropped;    // quick results that differ in length from the joined description
    uint64_t readings;
} Check;

static void demand(Check *check, bool holds, const char *failure) {
    if (!holds && check->failure == NULL) {
        check->failure = failure;
    }
}

static bool words_equal(const Words *left, const Words *right) {
    return left->count == right->count &&
           memcmp(left->at, right->at, left->count * sizeof *left->at) == 0;
}

static Outcome run(uint32_t mode, const Words *first, const Words *second) {
    return unify(mode, first->at, first->count, second->at, second->count, AMPLE_ROOM,
                 WORKING_NEEDED);
}

static void count_clash(Check *check, uint32_t number) {
    check->clashes[0] += number == CLASH;
    check->clashes[1] += number == QUICK_FAILS;
    check->clashes[2] += number == NO_CHOICE;
}

// Only the choices whose graphs agree, in a list of their own.
static Picks consistent_picks(Check *check, const Words *words) {
    Picks all = all_picks(words->at, MOST_WAYS);
    Picks kept = {.picks = zeroed(all.count, sizeof(Pick)), .too_many = all.too_many};
    for (size_t index = 0; index < all.count; index++) {
        if (sheet_merge_all(&check->sheet, &all.picks[index])) {
            kept.picks[kept.count++] = all.picks[index];
            all.picks[index] = (Pick){0};
        }
    }
    picks_free(&all);
    return kept;
}

// In how many ways a choice of each description from `next` on agrees with what is taken.
static size_t count_ways(Check *check, const Picks *lists, size_t next, size_t count, Pick *taken) {
    if (next == count) {
        return sheet_merge_all(&check->sheet, taken);
    }
    size_t ways = 0;
    for (size_t index = 0; index < lists[next].count; index++) {
        size_t before = taken->count;
        pick_add_all(taken, &lists[next].picks[index]);
        ways += count_ways(check, lists, next + 1, count, taken);
        taken->count = before;
    }
    return ways;
}

static size_t ways_of(Check *check, const Picks *lists, size_t count) {
    Pick taken = {0};
    size_t ways = count_ways(check, lists, 0, count, &taken);
    pick_free(&taken);
    return ways;
}

static void find_satisfying(Check *check, const Words *first, const Words *second) {
    for (size_t index = 0; index < check->structures.count; index++) {
        const Sheet *structure = &check->structures.sheets[index];
        check->satisfying[index] =
            sheet_satisfies(structure, first->at) && sheet_satisfies(structure, second->at);
    }
}

// Demand 2 on every small structure: it satisfies the result exactly when it satisfies both
// inputs, and not both on a clash.
static void check_structures(Check *check, const Outcome *outcome) {
    for (size_t index = 0; index < check->structures.count; index++) {
        bool satisfied = outcome->number == SUCCESS &&
                         sheet_satisfies(&check->structures.sheets[index], outcome->result.at);
        demand(check, satisfied == check->satisfying[index],
               "a structure satisfies the result and not both inputs, or both and not the result");
    }
}

// A consistent choice of the result, taken as a structure, satisfies both inputs and fits.
static void check_witness(Check *check, const Words *first, const Words *second,
                          const Picks *consistent, const Outcome *outcome) {
    if (consistent->count == 0) {
        return;
    }
    uint32_t drawn = random_below(&check->random, (uint32_t)consistent->count);
    sheet_merge_all(&check->sheet, &consistent->picks[drawn]);
    demand(check, sheet_satisfies(&check->sheet, first->at), "a reading misses the first input");
    demand(check, sheet_satisfies(&check->sheet, second->at), "a reading misses the second input");
    Words structure = {0};
    sheet_write(&check->sheet, &structure);
    words_add(&structure, 0);
    const Words *result = &outcome->result;
    demand(check, fit(structure.at, structure.count, result->at, result->count) == SUCCESS,
           "a reading does not fit the result");
    words_free(&structure);
}

// The fit test against the walk over the words, on one small structure.
static void check_fit(Check *check, const Words *description) {
    uint32_t drawn = random_below(&check->random, (uint32_t)check->structures.count);
    const Sheet *structure = &check->structures.sheets[drawn];
    Words words = {0};
    sheet_write(structure, &words);
    words_add(&words, 0);
    uint32_t number = fit(words.at, words.count, description->at, description->count);
    demand(check, number == (sheet_satisfies(structure, description->at) ? SUCCESS : CLASH),
           "the fit test differs from the definition");
    words_free(&words);
}

// What holds of every result: form, length, and the room it needs.
static void check_result(Check *check, uint32_t mode, const Words *first, const Words *second,
                         const Outcome *outcome) {
    const Words *result = &outcome->result;
    Description description;
    bool well_formed = description_read(result->at, result->count, &description);
    demand(check, well_formed, "the result is malformed");
    if (well_formed) {
        description_free(&description);
    }
    demand(check, result->count == outcome->length, "the length is not that of the result");
    demand(check, result->count + 3 <= first->count + second->count, "the result is too long");
    Outcome tight = unify(mode, first->at, first->count, second->at, second->count,
                          result->count - 1, WORKING_NEEDED);
    demand(check,
           tight.number == RESULT_LONG && tight.length == outcome->length && tight.readings == 0 &&
               tight.node == 0 && tight.result.count == 0,
           "one word short is not refused");
    words_free(&tight.result);
}

// Mode 1 against looking ahead until nothing changes; mode 2 fails with it.
static void check_quick(Check *check, uint32_t mode, const Words *joined, const Outcome *outcome) {
    Description whole;
    Words expected = {0};
    description_read(joined->at, joined->count, &whole);
    bool alive = look_ahead(&whole);
    demand(check, alive == (outcome->number != QUICK_FAILS),
           "the quick step and looking ahead do not fail together");
    if (alive && mode == MODE_QUICK) {
        Description kept = keep_what_is_left(&whole);
        description_write(&kept, &expected);
        description_free(&kept);
        demand(check, words_equal(&expected, &outcome->result), "quick drops or folds otherwise");
        check->dropped += expected.count != joined->count;
    }
    words_free(&expected);
    description_free(&whole);
}

// Mode 2 against the description that plain enumeration leaves, word for word.
static void check_full(Check *check, const Words *joined, size_t ways, const Outcome *outcome) {
    demand(check, is_clash(outcome->number) == (ways == 0), "full clashes at the wrong time");
    demand(check, outcome->readings == ways, "full counts other readings");
    if (ways > 0) {
        Picks consistent = consistent_picks(check, joined);
        Words expected = expect_full(&check->sheet, joined, &consistent);
        demand(check, words_equal(&expected, &outcome->result), "full keeps other alternatives");
        words_free(&expected);
        picks_free(&consistent);
    }
}

// The numbers of a mode once the definite graphs are known to join.
static void check_number(Check *check, uint32_t mode, const Outcome *outcome) {
    uint32_t number = outcome->number;
    demand(check,
           number == SUCCESS || (number == QUICK_FAILS && mode != MODE_JOIN) ||
               (number == NO_CHOICE && mode == MODE_FULL),
           "an unexpected number");
    demand(check, outcome->node == 0, "a node although the definite graphs do not clash");
    demand(check, number == SUCCESS || outcome->length == 0, "a clash with a length");
    count_clash(check, number);
}

// All that concerns one mode, once both inputs are known to join to `joined`.
static void check_mode(Check *check, uint32_t mode, const Words *first, const Words *second,
                       const Words *joined, size_t ways) {
    Outcome outcome = run(mode, first, second);
    check_number(check, mode, &outcome);
    if (outcome.number == SUCCESS) {
        Picks consistent = consistent_picks(check, &outcome.result);
        check_result(check, mode, first, second, &outcome);
        demand(check, consistent.count == ways, "the readings of the result are others");
        check_witness(check, first, second, &consistent, &outcome);
        picks_free(&consistent);
        check->successes++;
        check->readings += outcome.readings;
    } else {
        demand(check, ways == 0, "a clash although there are readings");
    }
    if (mode == MODE_JOIN) {
        demand(check, words_equal(joined, &outcome.result), "the joined description differs");
    } else {
        check_quick(check, mode, joined, &outcome);
    }
    if (mode == MODE_FULL) {
        check_full(check, joined, ways, &outcome);
    }
    check_structures(check, &outcome);
    words_free(&outcome.result);
}

// All modes on two inputs whose definite graphs clash.
static void check_clash(Check *check, const Words *first, const Words *second) {
    for (uint32_t mode = MODE_JOIN; mode <= MODE_FULL; mode++) {
        Outcome outcome = run(mode, first, second);
        demand(check, outcome.number == CLASH, "definite graphs clash, but the inputs do not");
        demand(check, outcome.length == 0 && outcome.readings == 0, "a clash with a length");
        demand(check, merged_node(&check->sheet, first, second) == outcome.node,
               "the node is not the smallest whose class holds a clash");
        check_structures(check, &outcome);
        words_free(&outcome.result);
        count_clash(check, outcome.number);
    }
}

// Both inputs in every mode; false when there are too many ways to choose.
static bool check_pair(Check *check, const Words *first, const Words *second) {
    Picks lists[] = {all_picks(first->at, MOST_WAYS), all_picks(second->at, MOST_WAYS)};
    bool small =
        !lists[0].too_many && !lists[1].too_many && lists[0].count * lists[1].count <= MOST_WAYS;
    if (small) {
        Words joined = {0};
        size_t ways = ways_of(check, lists, 2);
        find_satisfying(check, first, second);
        if (expect_joined(&check->sheet, first, second, &joined)) {
            for (uint32_t mode = MODE_JOIN; mode <= MODE_FULL; mode++) {
                check_mode(check, mode, first, second, &joined, ways);
            }
        } else {
            demand(check, ways == 0, "readings although definite graphs clash");
            check_clash(check, first, second);
        }
        check_fit(check, first);
        words_free(&joined);
    }
    picks_free(&lists[0]);
    picks_free(&lists[1]);
    return small;
}

static Words words_of(Description description) {
    Words words = {0};
    description_write(&description, &words);
    description_free(&description);
    return words;
}

static Words random_small(Check *check) {
    Random *random = &check->random;
    Vocabulary vocabulary = {STRUCTURE_FEATURE, 2 + random_one_in(random, 6), STRUCTURE_ATOM, 2};
    Size size;
    size.most_nodes = 1 + random_below(random, 4);
    size.most_disjunctions = 1 + random_below(random, 3);
    size.most_alternatives = 2 + random_below(random, 2);
    size.deepest = (int)random_below(random, DEEPEST + 1);
    return words_of(random_description(random, vocabulary, size));
}

static size_t product_of_counts(const Picks *lists, size_t count) {
    size_t product = 1;
    for (size_t index = 0; index < count; index++) {
        bool small = !lists[index].too_many && lists[index].count <= MOST_WAYS;
        product = small && product <= MOST_WAYS ? product * lists[index].count : MOST_WAYS + 1;
    }
    return product;
}

// One more description unified in a random mode; false when this clashed.
static bool check_step(Check *check, const Picks *lists, size_t count, const Words *next,
                       Words *result) {
    uint32_t mode = random_below(&check->random, 3);
    size_t ways = ways_of(check, lists, count);
    Outcome outcome = run(mode, result, next);
    words_free(result);
    *result = outcome.result;
    if (is_clash(outcome.number)) {
        demand(check, ways == 0, "a list clashes although there are readings");
        return false;
    }
    demand(check, outcome.number == SUCCESS, "a list gives an unexpected number");
    demand(check, mode != MODE_FULL || (ways > 0 && outcome.readings == ways),
           "full reports other readings of a list");
    return outcome.number == SUCCESS;
}

// Demand 3: a list of descriptions, from the one that says nothing, in a mixture of modes.
static void check_list(Check *check, const Words *inputs, const Picks *lists, size_t count) {
    Words result = words_of((Description){.graph = graph_of_nothing()});
    bool alive = true;
    for (size_t index = 0; alive && index < count; index++) {
        alive = check_step(check, lists, index + 1, &inputs[index], &result);
    }
    if (alive) {
        Picks consistent = consistent_picks(check, &result);
        demand(check, consistent.count == ways_of(check, lists, count),
               "the result of a list has other readings");
        picks_free(&consistent);
    }
    words_free(&result);
}

// A random list; one with too many ways to choose is left out.
static void check_random_list(Check *check) {
    Words inputs[LONGEST_LIST];
    Picks lists[LONGEST_LIST];
    size_t count = 1 + random_below(&check->random, LONGEST_LIST);
    for (size_t index = 0; index < count; index++) {
        inputs[index] = random_small(check);
        lists[index] = all_picks(inputs[index].at, MOST_WAYS);
    }
    if (product_of_counts(lists, count) <= MOST_WAYS) {
        check_list(check, inputs, lists, count);
    }
    for (size_t index = 0; index < count; index++) {
        words_free(&inputs[index]);
        picks_free(&lists[index]);
    }
}

// Words with one rule broken are refused in both places by both entries.
static void check_malformed(Check *check) {
    Pair pair = random_pair(&check->random);
    Words broken = malformed_words(&check->random, &pair.first);
    Words sound = random_small(check);
    if (broken.count <= LONGEST_INPUT && sound.count <= LONGEST_INPUT) {
        Outcome first = run(MODE_JOIN, &broken, &sound);
        Outcome second = run(MODE_JOIN, &sound, &broken);
        demand(check,
               first.number == FIRST_MALFORMED && second.number == SECOND_MALFORMED &&
                   first.node == 0 && second.node == 0 &&
                   fit(broken.at, broken.count, sound.at, sound.count) == FIRST_MALFORMED &&
                   fit(sound.at, sound.count, broken.at, broken.count) == SECOND_MALFORMED,
               "malformed words are not refused");
        words_free(&first.result);
        words_free(&second.result);
    }
    words_free(&broken);
    words_free(&sound);
    description_free(&pair.first);
    description_free(&pair.second);
}

static void random_inputs(Check *check, Words *first, Words *second) {
    if (random_below(&check->random, 3) > 0) {
        *first = random_small(check);
        *second = random_small(check);
        return;
    }
    Pair pair = random_pair(&check->random);
    *first = words_of(pair.first);
    *second = words_of(pair.second);
}

// One case: a pair small enough to enumerate, a list, and malformed words.
static void check_case(Check *check) {
    bool checked = false;
    while (!checked) {
        Words first;
        Words second;
        random_inputs(check, &first, &second);
        if (first.count <= LONGEST_CASE && second.count <= LONGEST_CASE) {
            checked = check_pair(check, &first, &second);
        }
        if (check->failure != NULL) {
            Call call = {
                .room = AMPLE_ROOM, .work = WORKING_NEEDED, .first = first, .second = second};
            call_print(&call, stdout);
        }
        words_free(&first);
        words_free(&second);
    }
    if (check->failure == NULL) {
        check_random_list(check);
        check_malformed(check);
    }
}

int run_check(uint64_t seed, uint64_t count) {
    Check check = {.random = {seed}, .structures = all_structures()};
    check.satisfying = zeroed(check.structures.count, sizeof(bool));
    sheet_open(&check.sheet, MOST_CELLS);
    uint64_t cases = 0;
    while (cases < count && check.failure == NULL) {
        check_case(&check);
        cases += check.failure == NULL;
    }
    printf("self-check seed %" PRIu64 ": %" PRIu64 " cases over %zu structures, %" PRIu64
           " successes, clashes by 6, 10, 11: %" PRIu64 " %" PRIu64 " %" PRIu64 ", %" PRIu64
           " quick results shorter than joined, %" PRIu64 " readings in full mode\n",
           seed, cases, check.structures.count, check.successes, check.clashes[0], check.clashes[1],
           check.clashes[2], check.dropped, check.readings);
    if (check.failure != NULL) {
        printf("difference: %s\n", check.failure);
    }
    sheet_free(&check.sheet);
    free(check.satisfying);
    structures_free(&check.structures);
    return check.failure == NULL ? 0 : 1;
}
